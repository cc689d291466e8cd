/*
 * A box that reports its status: volume 3, leaf 255, mode gather, feeding; under sequence number 2 (docs/PROTOCOL.md,
 * section 11, example 4). It prints the bytes of the frame in hex; a real box sends them over its serial line.
 *
 * Build it at the top of the repository:
 *     bin/firmware host
 *     gcc -std=c99 -Iinclude examples/box.c target/firmware/host/libfirmware.a -o target/box
 */
#include <stdio.h>

#include "trogonreed.h"

enum { REPORT = 0x05, REPORT_STATUS = 0x04, REPORT_SIZE = 9 };
enum { FEEDING = 1 << 0, GATHER = 1 << 2 };

struct status {
    uint8_t bits;
    uint16_t volume;
    uint32_t leaf;
    uint8_t alarms;
};

/* The payload of a report: its first byte, then the status (PROTOCOL 7.17, 7.19). Numbers are big-endian. */
static void put_report(const struct status *status, uint8_t payload[REPORT_SIZE])
{
    payload[0] = REPORT_STATUS;
    payload[1] = status->bits;
    payload[2] = (uint8_t)(status->volume >> 8);
    payload[3] = (uint8_t)status->volume;
    payload[4] = (uint8_t)(status->leaf >> 24);
    payload[5] = (uint8_t)(status->leaf >> 16);
    payload[6] = (uint8_t)(status->leaf >> 8);
    payload[7] = (uint8_t)status->leaf;
    payload[8] = status->alarms;
}

/* What goes over the serial line next. A frame may have 2 KiB, which is all the stack of a small box; a report has 18
 * bytes, and at most 34. */
static uint8_t line[34];

int main(void)
{
    const struct status status = {FEEDING | GATHER, 3, 255, 0};
    const uint8_t number = 2;
    uint8_t payload[REPORT_SIZE];
    uint32_t count, i;

    put_report(&status, payload);
    count = trogonreed_write_frame(REPORT, number, 0, payload, sizeof payload, line, sizeof line);
    if (trogonreed_needed(count) != 0) {
        fprintf(stderr, "refused: the line has room for %lu bytes, and the frame needs %lu\n",
                (unsigned long)sizeof line, (unsigned long)trogonreed_needed(count));
        return 1;
    }
    if (trogonreed_is_refused(count)) {
        fprintf(stderr, "refused: the payload is too long\n");
        return 1;
    }
    for (i = 0; i < count; i++)
        printf("%s%02X", i == 0 ? "" : " ", line[i]);
    printf("\n");
    return 0;
}
