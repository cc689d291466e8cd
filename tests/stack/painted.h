/* A stack of its own for one call, between two pages that may not be touched; and how much of it the call used. */
#ifndef PAINTED_H
#define PAINTED_H

#include "fenced.h"

enum { MAX_WORDS = 24 };

/* A function of C and its arguments, each in the word that C passes it in; a null pointer or unused word is 0. */
struct call {
    void (*function)(void);
    size_t count;
    uint64_t words[MAX_WORDS];
};

/* The bytes that a call with so many words has on the stack before its return address; what aligns it is among them. */
size_t size_of_arguments(size_t count);

/*
 * How a use is measured, or limited.
 *
 * PAINT and INVERSE fill the stack with a pattern and look for the lowest byte that changed. The second has the
 * complement of the first in each place, so a byte that the call stores differs from one of the two.
 *
 * STEPS makes the call one instruction at a time and notes the lowest stack pointer, so that it also sees what a call
 * sets aside and does not write; it is slow. What neither sees: a function that calls no other may set up to 128 bytes
 * aside below its stack pointer (the red zone of x86-64), and leave them unwritten.
 *
 * FENCE measures nothing: the call has FENCED bytes above the fence, and dies where it reads or writes below them.
 */
enum way { PAINT, INVERSE, STEPS, FENCE, WAYS };

/* The greatest multiple of 16 below TROGONREED_STACK. */
enum { FENCED = 1008 };

/*
 * What the function returns. `*used` is the size of its arguments on the stack, its return address, and all below. The
 * stack is from fenced_new.
 */
uint64_t painted_call(struct fenced stack, enum way way, const struct call *call, size_t *used);

#endif
