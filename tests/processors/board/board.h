/* What the test needs of a processor that has no C library: somewhere to print to, and an end. */
#ifndef BOARD_H
#define BOARD_H

#include <stddef.h>

void board_write(const char *text, size_t n);

/* Ends the program; 0 is good. It does not return. */
void board_exit(int status);

/* The program itself, which the start of each board calls. */
void board_main(void);

#endif
