/* A frame on the wire, computed without the writer (PROTOCOL 2). */
#ifndef WIRE_H
#define WIRE_H

#include "call.h"

/* Its size; PAYLOAD is not tested. Where `out` is not null, `*agrees` is whether the frame is what stands there. */
size_t wire_size(const struct arguments *arguments, const uint8_t *out, int *agrees);

/* What the writer has to return. */
uint32_t wire_answer(const struct arguments *arguments);

#endif
