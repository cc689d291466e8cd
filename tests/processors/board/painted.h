/* A stack of its own for one call, painted before it; and how much of it the call used. */
#ifndef PAINTED_H
#define PAINTED_H

#include "switch.h"

/* Zones on both sides of the stack are painted too. */
enum { STACK_SIZE = 2048, ZONE = 256 };

/* The second pattern is the complement of the first, so a byte that the call stores differs from one of the two. */
enum pattern { FIRST, INVERSE, PATTERNS };

struct use {
    size_t used;   /* arguments on the stack, return address if it is there, and all below */
    int is_inside; /* no byte of the zones is changed */
};

/* What the function returns. */
uintptr_t painted_call(enum pattern pattern, void (*function)(void), const uintptr_t *words, size_t count,
                       struct use *use);

#endif
