/*
 * A few calls to be watched one instruction at a time, from outside: painting does not see what a call sets aside and
 * leaves unwritten. Two controls that set aside a known amount come first. The program judges nothing.
 */
#include "board.h"
#include "layout.h"
#include "print.h"
#include "random.h"
#include "trogonreed.h"
#include "wire.h"

static uint64_t stack[256];

static void *top(void)
{
    return (void *)((uintptr_t)(stack + sizeof stack / sizeof stack[0]) & ~(uintptr_t)15);
}

static void reserve(size_t depth)
{
    static uintptr_t words[MAX_WORDS];

    words[0] = depth;
    switch_call(top(), (void (*)(void))control_reserve, words, 1);
}

/* With no room, one byte too few, and just enough. */
static void watch(size_t size)
{
    static uintptr_t words[MAX_WORDS];
    static uint8_t out[2 * 64];
    struct arguments arguments = {0x05, 0xFF, 0x0120, payload, size, out, 0};
    int agrees;
    const size_t needed = wire_size(&arguments, NULL, &agrees);
    size_t i;

    for (i = 0; i < 3; i++) {
        arguments.out_len = i == 0 ? 0 : needed - 2 + i;
        switch_call(top(), (void (*)(void))trogonreed_write_frame, words, words_of(&arguments, words));
    }
}

void board_main(void)
{
    size_t size;

    reserve(64);
    reserve(1008);
    fill(payload, LONGEST, FF_AND_55);
    for (size = 0; size < 40; size += 3)
        watch(size);
    watch(LONGEST); /* PAYLOAD */
    end();
}
