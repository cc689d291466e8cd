/* The registers of an LM3S6965 that this firmware uses, by the names of the data sheet. */
#ifndef REGISTERS_H
#define REGISTERS_H

#include <stdint.h>

#define REGISTER(address) (*(volatile uint32_t *)(address))

/* System control: the clock, and which parts of the chip get it. */
#define RCC REGISTER(0x400FE060)
#define RCGC1 REGISTER(0x400FE104)
#define RCGC2 REGISTER(0x400FE108)

/* Ports of pins, by the address of the port. */
#define PORT_A 0x40004000
#define PORT_E 0x40024000
#define PORT_F 0x40025000
#define GPIODIR(port) REGISTER((port) + 0x400)
#define GPIOIS(port) REGISTER((port) + 0x404)
#define GPIOIBE(port) REGISTER((port) + 0x408)
#define GPIOIEV(port) REGISTER((port) + 0x40C)
#define GPIOIM(port) REGISTER((port) + 0x410)
#define GPIOMIS(port) REGISTER((port) + 0x418)
#define GPIOICR(port) REGISTER((port) + 0x41C)
#define GPIOAFSEL(port) REGISTER((port) + 0x420)
#define GPIOPUR(port) REGISTER((port) + 0x510)
#define GPIODEN(port) REGISTER((port) + 0x51C)

/* UART0. */
#define UARTDR REGISTER(0x4000C000)
#define UARTFR REGISTER(0x4000C018)
#define UARTIBRD REGISTER(0x4000C024)
#define UARTFBRD REGISTER(0x4000C028)
#define UARTLCRH REGISTER(0x4000C02C)
#define UARTCTL REGISTER(0x4000C030)

/* The processor's own: a bit enables an interrupt, of those from 0 to 31. */
#define NVIC_ISER0 REGISTER(0xE000E100)

#endif
