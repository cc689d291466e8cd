/* What the processor begins with: the table of vectors, and the memory made ready for C. */
#include <stdint.h>

#include "switches.h"

/* A word that the stack has where nothing was ever pushed, so that its use can be measured in a box that runs. */
#define PAINT 0xC5C5C5C5u

/* From link.ld. */
extern uint32_t stack_bottom[], stack_top[];
extern uint32_t data_start[], data_end[], bss_start[], bss_end[];
extern const uint32_t data_values[];

int main(void);
void reset(void);
void halt(void);

/*
 * Paints the stack below what is in use: the processor keeps nothing below its stack pointer, and no interrupt is
 * enabled yet. In this file a pointer to volatile keeps the compiler from making a loop a call of the C library.
 */
static void paint_stack(void)
{
    volatile uint32_t *word = stack_bottom;
    uint32_t *used;

    __asm__ volatile("mov %0, sp" : "=r"(used));
    while (word < used)
        *word++ = PAINT;
}

static void fill_data(void)
{
    volatile uint32_t *word = data_start;
    const uint32_t *value = data_values;

    while (word < data_end)
        *word++ = *value++;
}

static void clear_bss(void)
{
    volatile uint32_t *word = bss_start;

    while (word < bss_end)
        *word++ = 0;
}

void reset(void)
{
    paint_stack();
    fill_data();
    clear_bss();
    main();
    halt();
}

/*
 * Every fault ends here. The box stands still and sends nothing more; a debugger finds the processor in this function.
 * It uses no stack, which may be what failed.
 */
void halt(void)
{
    for (;;)
        ;
}

/* Interrupt n has the entry 15 + n. Entries that are not named are 0, and to go there is a fault, too. */
struct vectors {
    uint32_t *stack;
    void (*entries[15 + 31])(void);
};

extern const struct vectors vectors;

__attribute__((section(".vectors"))) const struct vectors vectors = {
    stack_top,
    {
        [0] = reset,
        [1] = halt, /* not maskable */
        [2] = halt, /* hard fault */
        [3] = halt, /* memory fault */
        [4] = halt, /* bus fault */
        [5] = halt, /* usage fault */
        [15 + SWITCHES_PORT_E] = switches_interrupt,
        [15 + SWITCHES_PORT_F] = switches_interrupt,
    },
};
