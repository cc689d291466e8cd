/* Whether the painting works. */
#ifndef CONTROLS_H
#define CONTROLS_H

#include "fenced.h"

/* Whether a use is too much: TROGONREED_STACK bytes or more. */
int is_too_much(size_t used);

/* Measures functions whose use is known. */
void test_controls(struct fenced stack);

#endif
