/* Calls on another stack, and functions that use a known amount of it; in assembly, so that no compiler adds to it. */
#ifndef SWITCH_H
#define SWITCH_H

#include <stddef.h>
#include <stdint.h>

/* Calls a function on the stack that ends at `top`, a multiple of 16. `words` has six entries at least. */
uint64_t switch_call(void *top, void (*function)(void), const uint64_t *words, size_t count);

/* Each uses `depth` bytes below its return address: fills all of them with a value; writes the lowest one alone; moves
 * the stack pointer alone. */
void control_fill(size_t depth, uint8_t value);
void control_touch(size_t depth, uint8_t value);
void control_reserve(size_t depth);

#endif
