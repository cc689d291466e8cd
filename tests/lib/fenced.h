/* Memory between two pages that may not be touched: code that reads or writes one byte past either end dies. */
#ifndef FENCED_H
#define FENCED_H

#include <stddef.h>
#include <stdint.h>

/* A whole number of pages. */
struct fenced {
    uint8_t *first;
    size_t size;
};

/* Which of the two fences a buffer lies at; towards the other one lie guard bytes. */
enum side { FRONT, BACK, SIDES };

/* At least so many bytes; a program that gets none ends. */
struct fenced fenced_new(size_t least);

/* A buffer of n bytes at one of the fences. */
uint8_t *fenced_place(struct fenced area, enum side side, size_t n);

/* Whether writing to the area kills. */
void fenced_lock(struct fenced area, int locked);

/* Whether each byte of the area has this value, but for n of them from a place in it on. */
int fenced_all(struct fenced area, uint8_t value, const uint8_t *place, size_t n);

#endif
