/*
 * A writer that answers right and copies the whole body to its stack before it writes: what the test of the writer has
 * to refuse, and for its stack alone.
 */
#include <string.h>

#include "trogonreed.h"

uint32_t trogonreed_write_frame(uint8_t command, uint8_t number, uint16_t flags, const uint8_t *payload,
                                size_t payload_len, uint8_t *out, size_t out_len)
{
    volatile uint8_t body[TROGONREED_MAX_PAYLOAD + 7];
    const size_t length = payload_len + 5, size = length + 2;
    size_t i, need = 2;
    uint8_t sum = 0;

    if (payload_len > TROGONREED_MAX_PAYLOAD)
        return TROGONREED_REFUSED_PAYLOAD;
    body[0] = (uint8_t)(length >> 8);
    body[1] = (uint8_t)length;
    body[2] = command;
    body[3] = number;
    body[4] = (uint8_t)(flags >> 8);
    body[5] = (uint8_t)flags;
    for (i = 0; i < payload_len; i++)
        body[6 + i] = payload[i];
    for (i = 0; i + 1 < size; i++)
        sum = (uint8_t)(sum + body[i]);
    body[size - 1] = sum;
    for (i = 0; i < size; i++)
        need += body[i] == 0xFF ? 2 : 1;
    if (out_len < need)
        return (uint32_t)(TROGONREED_NO_ROOM + need);
    memset(out, 0xFF, 2);
    for (i = 0, out += 2; i < size; i++) {
        *out++ = body[i];
        if (body[i] == 0xFF)
            *out++ = 0x55;
    }
    return (uint32_t)need;
}
