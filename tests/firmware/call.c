#include <string.h>

#include "frames.h"
#include "trogonreed.h"

struct memory memory_new(void)
{
    struct memory memory;

    memory.payload = fenced_new(MOST_PAYLOAD);
    memory.out = fenced_new(MOST_OUT);
    return memory;
}

uint32_t call(struct memory memory, enum side side, const struct frame *frame, size_t room, uint8_t **out)
{
    uint8_t *payload = fenced_place(memory.payload, side, frame->payload_len);
    uint32_t returned;

    if (frame->payload_len > 0)
        memcpy(payload, frame->payload, frame->payload_len);
    *out = fenced_place(memory.out, side, room);
    memset(memory.out.first, UNTOUCHED, memory.out.size);
    /* a write to the payload, or next to it, kills */
    fenced_lock(memory.payload, 1);
    returned = trogonreed_write_frame(frame->command, frame->number, frame->flags, payload, frame->payload_len, *out,
                                      room);
    fenced_lock(memory.payload, 0);
    return returned;
}
