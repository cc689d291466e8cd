#include "serial.h"

#include "registers.h"

/* The crystal of the board, in hertz, and its number in RCC. */
#define CRYSTAL 8000000u
#define XTAL_8_MHZ 0xEu
#define BAUD 9600u

/* The port divides the clock by 16 times a number that has 6 bits after the point: 52 and 5/64, rounded. */
#define DIVIDER ((CRYSTAL * 8 / BAUD + 1) / 2)

enum { RCC_NO_CRYSTAL = 1 << 0, RCC_SOURCE = 3 << 4, RCC_XTAL = 0xF << 6 };
enum { CLOCK_UART0 = 1 << 0, CLOCK_PORT_A = 1 << 0 };
enum { PIN_RX = 1 << 0, PIN_TX = 1 << 1 };
enum { QUEUE_FULL = 1 << 5 };
enum { USE_QUEUE = 1 << 4, EIGHT_BITS = 3 << 5 };
enum { ENABLE = 1 << 0, ENABLE_TX = 1 << 8, ENABLE_RX = 1 << 9 };

/*
 * The chip starts on an oscillator of its own, which may be wrong by 30 percent: too much for a serial line. The
 * crystal needs a while until it swings well, and the loop takes some 50 ms.
 */
static void use_crystal(void)
{
    volatile uint32_t wait = 100000;

    RCC &= ~(uint32_t)RCC_NO_CRYSTAL;
    while (wait > 0)
        wait = wait - 1;
    RCC = (RCC & ~(uint32_t)(RCC_XTAL | RCC_SOURCE)) | XTAL_8_MHZ << 6;
}

void serial_start(void)
{
    use_crystal();
    RCGC1 |= CLOCK_UART0;
    RCGC2 |= CLOCK_PORT_A;
    (void)RCGC2; /* the clock comes some cycles later, and reading takes as long */
    GPIOAFSEL(PORT_A) |= PIN_RX | PIN_TX;
    GPIODEN(PORT_A) |= PIN_RX | PIN_TX;
    UARTCTL = 0; /* it is set up while it is off */
    UARTIBRD = DIVIDER / 64;
    UARTFBRD = DIVIDER % 64;
    UARTLCRH = USE_QUEUE | EIGHT_BITS;
    UARTCTL = ENABLE | ENABLE_TX | ENABLE_RX;
}

void serial_send(const uint8_t *bytes, uint32_t count)
{
    uint32_t i;

    for (i = 0; i < count; i++) {
        while (UARTFR & QUEUE_FULL)
            ;
        UARTDR = bytes[i];
    }
}
