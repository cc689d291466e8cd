/* The serial line to the WiFi module: 9600 baud, 8 data bits, no parity, 1 stop bit. */
#ifndef SERIAL_H
#define SERIAL_H

#include <stdint.h>

void serial_start(void);

/* Returns when the last byte is in the queue of the serial port; some bytes may not be on the line yet. */
void serial_send(const uint8_t *bytes, uint32_t count);

#endif
