/* Numbers that look random, the same on every processor for one seed. */
#ifndef RANDOM_H
#define RANDOM_H

#include <stddef.h>
#include <stdint.h>

/* How bytes are filled: FF and 55 are what the writer treats in a way of their own. */
enum kind { PLAIN, ALL_FF, ANY, FF_AND_55, MANY_FF, KINDS };

void begin_random(uint32_t seed);

/* Below n, which is 65,536 at most. */
uint32_t below(uint32_t n);

void fill(uint8_t *bytes, size_t n, enum kind kind);

#endif
