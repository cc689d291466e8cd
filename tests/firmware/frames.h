/* The arguments of a call, and one call on fenced memory. */
#ifndef FRAMES_H
#define FRAMES_H

#include "fenced.h"

enum { MOST_PAYLOAD = 65536, MOST_OUT = 4096, UNTOUCHED = 0xAA, LONGEST = 1030 };

/* How a random payload is filled. */
enum kind { ANY, ALL_FF, FF_AND_55, MANY_FF, KINDS };

struct frame {
    uint8_t command;
    uint8_t number;
    uint16_t flags;
    const uint8_t *payload;
    size_t payload_len;
};

/* The memory that calls are made on. */
struct memory {
    struct fenced payload;
    struct fenced out;
};

struct memory memory_new(void);

/* A call with `room` bytes of output, each UNTOUCHED before it, at one side of their memory. `*out` is the output. */
uint32_t call(struct memory memory, enum side side, const struct frame *frame, size_t room, uint8_t **out);

/* Random frames, the same for one seed everywhere. `LONGEST` bytes of payload are more than a frame may have. */
void begin_random(uint64_t seed);
void fill_random(uint8_t *payload, size_t payload_len, enum kind kind);
struct frame frame_random(uint8_t payload[LONGEST]);

/* Asks with every room that is too small, and writes into room of the length found: NULL, or what is wrong. */
const char *asking_fault(struct memory memory, const struct frame *frame);

/* The mode `random`: a line for each call. */
int print_random(uint64_t seed, unsigned long count);

#endif
