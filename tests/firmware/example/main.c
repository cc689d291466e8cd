/* The header's example, which a test cuts out of it: reports of PROTOCOL 11, example 4, until there is no more room,
 * and a payload too long. */
#include <string.h>

#include "trogonreed.h"

#include "example.h"

static const uint8_t status[] = {0x04, 0x05, 0x00, 0x03, 0x00, 0x00, 0x00, 0xFF, 0x00};
static const uint8_t report[] = {0xFF, 0xFF, 0x00, 0x0E, 0x05, 0x02, 0x00, 0x00, 0x04, 0x05,
                                 0x00, 0x03, 0x00, 0x00, 0x00, 0xFF, 0x55, 0x00, 0x20};

int main(void)
{
    static uint8_t too_long[TROGONREED_MAX_PAYLOAD + 1];
    const size_t most = sizeof waiting / sizeof report;
    size_t i;

    if (queue_report(2, too_long, sizeof too_long) || used != 0)
        return 1;
    for (i = 0; i < most; i++)
        if (!queue_report(2, status, sizeof status) || used != (i + 1) * sizeof report)
            return 1;
    if (queue_report(2, status, sizeof status) || used != most * sizeof report)
        return 1;
    for (i = 0; i < most; i++)
        if (memcmp(waiting + i * sizeof report, report, sizeof report) != 0)
            return 1;
    return 0;
}
