/* Text for the board, and the count of tests. A line that is not one of the random calls begins with "board: ". */
#ifndef PRINT_H
#define PRINT_H

#include <stddef.h>
#include <stdint.h>

void print_text(const char *text);
void print_number(uint32_t number);
void print_hex(const uint8_t *bytes, size_t n);

/* Counts a test. One that fails is printed, with a number that says where. */
void test(int holds, const char *what, uint32_t where);

/* Prints the count, and ends the program. */
void end(void);

#endif
