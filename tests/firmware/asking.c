/* Asking how much room a frame needs, and then writing it. */
#include <string.h>

#include "frames.h"
#include "trogonreed.h"

/* Every room below a size gets one number, at both sides, and nothing is written. */
static const char *rooms_fault(struct memory memory, const struct frame *frame, size_t size, uint32_t returned)
{
    size_t room;
    int side;
    uint8_t *out;

    for (room = 0; room < size; room++)
        for (side = FRONT; side < SIDES; side++) {
            if (call(memory, (enum side)side, frame, room, &out) != returned)
                return "another room gets another number";
            if (!fenced_all(memory.out, UNTOUCHED, out, 0))
                return "a refusal writes";
        }
    return NULL;
}

/* Room of the length that was asked for gets what the room for any frame gets. */
static const char *written_fault(struct memory memory, const struct frame *frame, size_t needed)
{
    uint8_t ample[TROGONREED_MAX_FRAME], *out;

    if (call(memory, BACK, frame, sizeof ample, &out) != needed)
        return "the room for any frame gets another count";
    memcpy(ample, out, sizeof ample);
    if (call(memory, BACK, frame, needed, &out) != needed)
        return "the room that is needed gets another count";
    if (memcmp(out, ample, needed) != 0)
        return "the room that is needed gets other bytes";
    return fenced_all(memory.out, UNTOUCHED, out, needed) ? NULL : "bytes change beside the output";
}

const char *asking_fault(struct memory memory, const struct frame *frame)
{
    const uint32_t asked = trogonreed_write_frame(frame->command, frame->number, frame->flags, frame->payload,
                                                  frame->payload_len, NULL, 0);
    const size_t needed = trogonreed_needed(asked);
    const char *fault;

    if (frame->payload_len > TROGONREED_MAX_PAYLOAD) {
        if (asked != TROGONREED_REFUSED_PAYLOAD || needed != 0)
            return "null and 0 do not get PAYLOAD";
        return rooms_fault(memory, frame, TROGONREED_MAX_FRAME + 1, asked);
    }
    if (needed < 2 + 7 + frame->payload_len || asked != TROGONREED_NO_ROOM + needed)
        return "null and 0 do not get ROOM";
    fault = rooms_fault(memory, frame, needed, asked);
    return fault != NULL ? fault : written_fault(memory, frame, needed);
}
