/* Calls on another stack, and functions that use a known amount of it; in assembly, so that no compiler adds to it. */
#ifndef SWITCH_H
#define SWITCH_H

#include <stddef.h>
#include <stdint.h>

/* As many as a call of the writer or of a control can have, and at least as many as there are registers for them. */
enum { MAX_WORDS = 16 };

/* Calls a function on the stack that ends at `top`, a multiple of 16, with words as layout.h says. */
uintptr_t switch_call(void *top, void (*function)(void), const uintptr_t *words, size_t count);

/*
 * Each uses `depth` bytes below the stack pointer that it is called with, or below its return address where that is on
 * the stack: fills all of them with a value; writes the lowest one alone; moves the stack pointer alone, by a multiple
 * of 16. The first two need not move it: on these boards nothing else writes there.
 */
void control_fill(size_t depth, uint8_t value);
void control_touch(size_t depth, uint8_t value);
void control_reserve(size_t depth);

#endif
