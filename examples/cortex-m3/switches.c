#include "switches.h"

#include "registers.h"

enum { CLOCK_PORT_E = 1 << 4, CLOCK_PORT_F = 1 << 5 };
enum { UP = 1 << 0, SELECT = 1 << 1 }; /* PE0 and PF1, low while they are pressed */

/*
 * The events that wait, in a ring. The interrupt adds and the main loop takes, each with a count of its own that the
 * other one only reads. The counts wrap, and their difference is how many wait.
 */
static volatile uint8_t ring[SWITCHES_WAITING];
static volatile uint8_t added, taken;
static volatile uint8_t lost;

/*
 * A pin as an input that asks for the interrupt when it goes high: a leaf counts when it has left the sensor. QEMU is a
 * second reason. Its ports have every pin low until a switch is let go, so that a first press would not be seen.
 */
static void start_pin(uint32_t port, uint32_t pin)
{
    volatile uint32_t wait = 100;

    GPIOIM(port) &= ~pin;
    GPIODIR(port) &= ~pin;
    GPIOPUR(port) |= pin;
    GPIODEN(port) |= pin;
    while (wait > 0) /* the pull-up takes some microseconds to raise the pin, and that is not an event */
        wait = wait - 1;
    GPIOIS(port) &= ~pin;
    GPIOIBE(port) &= ~pin;
    GPIOIEV(port) |= pin;
    GPIOICR(port) = pin;
    GPIOIM(port) |= pin;
}

void switches_start(void)
{
    RCGC2 |= CLOCK_PORT_E | CLOCK_PORT_F;
    (void)RCGC2; /* the clock comes some cycles later, and reading takes as long */
    start_pin(PORT_E, UP);
    start_pin(PORT_F, SELECT);
    NVIC_ISER0 = 1u << SWITCHES_PORT_E | 1u << SWITCHES_PORT_F;
}

/* An event for which there is no room is lost, and that is remembered: what waits already is older, and stays. */
static void add(enum event event)
{
    if ((uint8_t)(added - taken) == SWITCHES_WAITING) {
        lost = 1;
        return;
    }
    ring[added % SWITCHES_WAITING] = (uint8_t)event;
    added = (uint8_t)(added + 1);
}

static void look(uint32_t port, uint32_t pin, enum event event)
{
    if (GPIOMIS(port) & pin) {
        GPIOICR(port) = pin;
        add(event);
    }
}

/*
 * Of both ports. They have the same priority, so that neither interrupts the other, and each looks at both switches.
 * Where both were let go since the last look, nothing says which came first; the leaf is taken as one of the old
 * volume. That is a matter of microseconds. A switch let go twice in them counts once.
 */
void switches_interrupt(void)
{
    look(PORT_F, SELECT, LEAF);
    look(PORT_E, UP, NEW_VOLUME);
}

static void mask_interrupts(void)
{
    __asm__ volatile("cpsid i" ::: "memory");
}

static void unmask_interrupts(void)
{
    __asm__ volatile("cpsie i\n\tisb" ::: "memory"); /* after isb, an interrupt that waited has been handled */
}

/*
 * The look into the ring and the sleep are one step for the interrupt, because it is masked: no event can come between
 * them and be slept over. A masked interrupt still ends the sleep, and is handled when it is unmasked.
 */
enum event switches_take(void)
{
    enum event event;

    mask_interrupts();
    while (added == taken) {
        __asm__ volatile("dsb\n\twfi" ::: "memory");
        unmask_interrupts();
        mask_interrupts();
    }
    unmask_interrupts();
    event = (enum event)ring[taken % SWITCHES_WAITING];
    taken = (uint8_t)(taken + 1);
    return event;
}

int switches_lost(void)
{
    return lost;
}
