/*
 * Writers in C that the test has to refuse, one for each name that is defined, and a right one where none is. They take
 * the place of the archive.
 */
#include "trogonreed.h"

#ifdef READS_WIDE /* takes it for granted that the caller cleared the bits above */
typedef uintptr_t small, medium;
#else
typedef uint8_t small;
typedef uint16_t medium;
#endif

/* As the header declares it, but for the fault of wide numbers. */
uint32_t wrong_write_frame(small command, small number, medium flags, const uint8_t *payload, uint64_t payload_len,
                           uint8_t *out, uint64_t out_len) __asm__("trogonreed_write_frame");

#ifdef TRUNCATES_LENGTH
typedef uint32_t length;
#else
typedef uint64_t length;
#endif
#ifdef TRUNCATES_ROOM
typedef uint32_t space;
#else
typedef uint64_t space;
#endif

static uint64_t put(uint8_t *out, uint64_t at, uintptr_t wide, int stuffed)
{
    if (out != NULL)
        out[at] = (uint8_t)wide;
    at++;
    if (!stuffed || wide != 0xFF)
        return at;
    if (out != NULL)
        out[at] = 0x55;
    return at + 1;
}

/* The size of the frame, which is written where there is an output. */
static uint64_t frame(const uintptr_t fields[6], const uint8_t *payload, length size, uint8_t *out)
{
    uint8_t sum = 0;
    uint64_t at = 2;
    length i;

    if (out != NULL)
        out[0] = out[1] = 0xFF;
    for (i = 0; i < 6; i++, sum = (uint8_t)(sum + fields[i - 1]))
        at = put(out, at, fields[i], 1);
    for (i = 0; i < size; i++, sum = (uint8_t)(sum + payload[i - 1]))
        at = put(out, at, payload[i], 1);
#ifdef NO_55_AFTER_SUM
    return put(out, at, sum, 0);
#else
    return put(out, at, sum, 1);
#endif
}

uint32_t wrong_write_frame(small command, small number, medium flags, const uint8_t *payload, uint64_t payload_len,
                           uint8_t *out, uint64_t out_len)
{
    const length size = (length)payload_len;
    const space room = (space)out_len;
    const uintptr_t fields[6] = {(uintptr_t)(size + 5) >> 8, (size + 5) & 0xFF, command, number, flags >> 8,
                                 flags & 0xFF};
    uint64_t needed;
#ifdef USES_STACK
    volatile uint8_t body[1024];

    for (needed = 0; needed < sizeof body; needed++)
        body[needed] = (uint8_t)needed;
    (void)body[0];
#endif
    if (size > TROGONREED_MAX_PAYLOAD)
        return TROGONREED_REFUSED_PAYLOAD;
    needed = frame(fields, payload, size, NULL);
    if (room < needed)
        return (uint32_t)(TROGONREED_NO_ROOM + needed);
    frame(fields, payload, size, out);
#ifdef WRITES_BEYOND
    out[needed] = 0;
#endif
#ifdef WRITES_PAYLOAD
    if (size > 0)
        ((uint8_t *)(uintptr_t)payload)[0] ^= 1;
#endif
    return (uint32_t)needed;
}
