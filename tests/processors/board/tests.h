/* The parts of the test. */
#ifndef TESTS_H
#define TESTS_H

#include <stdint.h>

/* Random calls, a line for each: COMMAND NUMBER FLAGS ROOM PAYLOAD RESULT OUTPUT. */
void test_random(uint32_t count);

/* Payloads of every size, on a painted stack; prints the greatest use. */
void test_sizes(void);

/* Numbers wider than the writer's parameters, and lengths that 32 bits cannot hold. */
void test_widths(void);

#endif
