/* One call of the writer on guarded memory, made in one of several ways. */
#ifndef CALL_H
#define CALL_H

#include <stddef.h>
#include <stdint.h>

enum { LONGEST = 1030, MOST_ROOM = 2070, UNTOUCHED = 0xAA };

struct arguments {
    uint8_t command;
    uint8_t number;
    uint16_t flags;
    const uint8_t *payload;
    uint64_t payload_len;
    uint8_t *out;
    uint64_t out_len;
};

/* How the call is made; returns what the writer returns. */
typedef uint32_t (*way)(const struct arguments *arguments);

/* As the compiler makes it from the header's declaration. */
uint32_t call_declared(const struct arguments *arguments);

/* The bytes of the next payload; `LONGEST` of them, more than a frame may have. */
extern uint8_t payload[LONGEST];

/*
 * Makes a call with the first bytes of `payload` and so much room, at most MOST_ROOM. Both lie between guard bytes, at
 * any address. Sets `payload` and `out` of the arguments. What is wrong beside the answer, or NULL: a guard byte or the
 * payload is changed, or the output where nothing was to be written.
 */
const char *guarded_call(way way, struct arguments *arguments, uint32_t *returned);

#endif
