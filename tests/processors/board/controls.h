/* Whether the painting works. */
#ifndef CONTROLS_H
#define CONTROLS_H

#include <stddef.h>

int is_too_much(size_t used);

void test_controls(void);

#endif
