/*
 * A Cortex-M without an operating system, in an emulator: its vectors and its start. It prints and ends through
 * semihosting: a breakpoint that the emulator takes for a call, with a number in r0 and the address of words in r1.
 */
#include <stdint.h>

#include "board.h"

enum { OPEN = 1, WRITE = 5, EXIT_EXTENDED = 32, FOR_WRITING = 4, ENDED = 0x20026 };

/* Of the linker's script. */
extern uint32_t stack_top[], zero_first[], zero_end[];

void start(void);

static uint32_t semihosting(uint32_t number, const void *words)
{
    register uint32_t first __asm__("r0") = number;
    register const void *second __asm__("r1") = words;

    __asm__ volatile("bkpt 0xAB" : "+r"(first) : "r"(second) : "memory");
    return first;
}

void board_write(const char *text, size_t n)
{
    static uint32_t console;
    static int is_open;

    if (!is_open) {
        const uint32_t name[] = {(uint32_t)(uintptr_t)":tt", FOR_WRITING, 3};

        console = semihosting(OPEN, name);
        is_open = 1;
    }
    while (n > 0) {
        const uint32_t words[] = {console, (uint32_t)(uintptr_t)text, (uint32_t)n};
        const uint32_t left = semihosting(WRITE, words); /* or a number above n, where nobody reads at the moment */

        if (left <= n) {
            text += n - left;
            n = left;
        }
    }
}

void board_exit(int status)
{
    const uint32_t words[] = {ENDED, (uint32_t)status};

    for (;;)
        semihosting(EXIT_EXTENDED, words);
}

/* A fault of the processor: an address that is not there, an instruction that it does not have. */
static void stop(void)
{
    board_exit(4);
}

void start(void)
{
    uint32_t *zero;

    for (zero = zero_first; zero < zero_end; zero++)
        *zero = 0;
    board_main();
}

/* The stack, the start, and the faults; no interrupt is enabled. */
const struct {
    uint32_t *stack;
    void (*vectors[15])(void);
} vectors __attribute__((section(".vectors"), used)) = {stack_top, {start, stop, stop, stop, stop, stop}};
