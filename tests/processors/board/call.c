#include "call.h"

#include "random.h"
#include "trogonreed.h"

enum { GUARD = 16, SHIFTS = 4 };

uint8_t payload[LONGEST];

static uint8_t read_area[GUARD + SHIFTS + LONGEST + GUARD];
static uint8_t out_area[GUARD + SHIFTS + MOST_ROOM + GUARD];

uint32_t call_declared(const struct arguments *arguments)
{
    return trogonreed_write_frame(arguments->command, arguments->number, arguments->flags, arguments->payload,
                                  arguments->payload_len, arguments->out, arguments->out_len);
}

static void set(uint8_t *bytes, size_t n)
{
    size_t i;

    for (i = 0; i < n; i++)
        bytes[i] = UNTOUCHED;
}

/* Whether the bytes from `first` up to `end` are as they were before the call. */
static int is_untouched(const uint8_t *first, const uint8_t *end)
{
    while (first < end && *first == UNTOUCHED)
        first++;
    return first >= end;
}

static int is_same(const uint8_t *some, const uint8_t *others, size_t n)
{
    size_t i = 0;

    while (i < n && some[i] == others[i])
        i++;
    return i == n;
}

static const char *fault(const struct arguments *arguments, uint32_t returned)
{
    const size_t size = (size_t)arguments->payload_len, room = (size_t)arguments->out_len;
    const size_t written = trogonreed_is_refused(returned) ? 0 : returned;

    if (!is_same(arguments->payload, payload, size))
        return "the payload is changed";
    if (!is_untouched(read_area, arguments->payload) ||
        !is_untouched(arguments->payload + size, read_area + sizeof read_area))
        return "a byte beside the payload is changed";
    if (written > room || !is_untouched(out_area, arguments->out) ||
        !is_untouched(arguments->out + room, out_area + sizeof out_area))
        return "a byte beside the output is changed";
    return is_untouched(arguments->out + written, arguments->out + room) ? NULL : "the rest of the output is changed";
}

const char *guarded_call(way way, struct arguments *arguments, uint32_t *returned)
{
    const size_t size = (size_t)arguments->payload_len;
    uint8_t *place = read_area + GUARD + below(SHIFTS);
    size_t i;

    set(read_area, sizeof read_area);
    set(out_area, sizeof out_area);
    for (i = 0; i < size; i++)
        place[i] = payload[i];
    arguments->payload = place;
    arguments->out = out_area + GUARD + below(SHIFTS);
    *returned = way(arguments);
    return fault(arguments, *returned);
}
