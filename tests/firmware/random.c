/* Random frames; and random calls, a line of text for each: COMMAND NUMBER FLAGS ROOM PAYLOAD RESULT OUTPUT. */
#include <stdio.h>
#include <string.h>

#include "frames.h"
#include "trogonreed.h"

enum { OVER = 8 };

/* xorshift64*: the same numbers everywhere for one seed */
static uint64_t state;

void begin_random(uint64_t seed)
{
    /* a state of 0 would stay 0 */
    state = seed * UINT64_C(11400714819323198485) ^ UINT64_C(88172645463325252);
    if (state == 0)
        state = 1;
}

static uint32_t below(uint32_t n)
{
    state ^= state >> 12;
    state ^= state << 25;
    state ^= state >> 27;
    return (uint32_t)((state * UINT64_C(2685821657736338717)) >> 32) % n;
}

/* Any byte, but FF and 55 often. */
static uint8_t byte(enum kind kind)
{
    switch (kind) {
    case ANY:
        return (uint8_t)below(256);
    case ALL_FF:
        return 0xFF;
    case FF_AND_55:
        return below(2) ? 0xFF : 0x55;
    default:
        return below(4) ? (uint8_t)below(256) : 0xFF;
    }
}

void fill_random(uint8_t *payload, size_t payload_len, enum kind kind)
{
    size_t i;

    for (i = 0; i < payload_len; i++)
        payload[i] = byte(kind);
}

struct frame frame_random(uint8_t payload[LONGEST])
{
    const enum kind kind = (enum kind)below(KINDS);
    struct frame frame;

    frame.command = byte(MANY_FF);
    frame.number = byte(MANY_FF);
    frame.flags = byte(MANY_FF);
    frame.flags = (uint16_t)(frame.flags << 8 | byte(MANY_FF));
    frame.payload = payload;
    /* mostly short, since lines are; from 1,010 on, where the limit is, often too */
    frame.payload_len = below(3) ? below(40) : below(2) ? below(LONGEST + 1) : 1010 + below(LONGEST - 1010 + 1);
    fill_random(payload, frame.payload_len, kind);
    return frame;
}

/* From none to some more than the frame needs, often just enough or one less. The writer itself says what it needs. */
static size_t room_random(struct memory memory, const struct frame *frame)
{
    uint8_t *out;
    const size_t needed = trogonreed_needed(call(memory, BACK, frame, 0, &out));

    if (needed == 0)
        return below(TROGONREED_MAX_FRAME + 1);
    switch (below(4)) {
    case 0:
        return needed;
    case 1:
        return needed - 1;
    default:
        return below((uint32_t)needed + OVER + 1);
    }
}

static void put_hex(const uint8_t *bytes, size_t n, char end)
{
    static const char digits[] = "0123456789abcdef";
    char text[2 * MOST_OUT];
    size_t i;

    for (i = 0; i < n; i++) {
        text[2 * i] = digits[bytes[i] >> 4];
        text[2 * i + 1] = digits[bytes[i] & 15];
    }
    if (n == 0)
        putchar('-');
    fwrite(text, 1, 2 * n, stdout);
    putchar(end);
}

int print_random(uint64_t seed, unsigned long count)
{
    const struct memory memory = memory_new();
    uint8_t payload[LONGEST], *out;
    unsigned long i;

    begin_random(seed);
    for (i = 0; i < count; i++) {
        const struct frame frame = frame_random(payload);
        const size_t room = room_random(memory, &frame);
        const uint32_t returned = call(memory, below(SIDES) ? BACK : FRONT, &frame, room, &out);

        if (!fenced_all(memory.out, UNTOUCHED, out, room)) {
            fprintf(stderr, "firmware: call %lu writes beside its output\n", i);
            return 1;
        }
        printf("%u %u %u %lu ", frame.command, frame.number, frame.flags, (unsigned long)room);
        put_hex(frame.payload, frame.payload_len, ' ');
        printf("%lu ", (unsigned long)returned);
        put_hex(out, room, '\n');
    }
    return fflush(stdout) == 0 ? 0 : 1;
}
