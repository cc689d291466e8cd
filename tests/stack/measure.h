/* What the programs of tests/stack share: counting, the memory that calls are made on, and one call measured. */
#ifndef MEASURE_H
#define MEASURE_H

#include "painted.h"

enum { STACK_SIZE = 16384, OUT_SIZE = 4096, TABLE_SIZE = 4096 };

/* What calls write to. Before each call every byte of them is the same. */
extern uint8_t out[OUT_SIZE], table[TABLE_SIZE];

/* A test that fails prints what it is. */
void test(int holds, const char *what, ...);

/* Prints the count of the tests; the exit status. */
int end(void);

/* The words of a slice: its place and its size. */
#define SLICE(bytes, size) (uint64_t)(uintptr_t)(bytes), (uint64_t)(size)

/* The greatest use of a call, and whether it returned the right number each time. */
struct measure {
    size_t used;
    int is_right;
};

/* Makes a call once in each way from `first` to `last`. */
struct measure measure(struct fenced stack, enum way first, enum way last, const struct call *call, uint32_t expected);

#endif
