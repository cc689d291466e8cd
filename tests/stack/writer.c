/*
 * The stack that the exported writer uses: payloads of every size from 0 to one byte too many, in outputs that are too
 * small, just right and ample. Prints the greatest use; a use of TROGONREED_STACK bytes or more fails. Last line
 * 'N passed, M failed'. The painting itself is tested first (controls.c). The argument is the seed of random payloads.
 */
#include <stdio.h>
#include <stdlib.h>
#include <string.h>

#include "controls.h"
#include "measure.h"
#include "trogonreed.h"

enum { LONGEST = 1020 };
enum kind { PLAIN, ALL_FF, RANDOM, KINDS };
enum room { NO_ROOM, SHORT_BY_ONE, JUST_RIGHT, AMPLE, ROOMS };

static const char *const kind_names[KINDS] = {"plain", "all FF", "random"};
static const char *const room_names[ROOMS] = {"no room", "one byte short", "just right", "ample"};

/* xorshift64*: the same payloads in each run with one seed */
static uint64_t state;

static uint8_t random_byte(void)
{
    state ^= state >> 12;
    state ^= state << 25;
    state ^= state >> 27;
    return (uint8_t)((state * UINT64_C(2685821657736338717)) >> 56);
}

/* Command, number, both bytes of the flags, and the payload. */
static uint8_t fields[4 + LONGEST];

static void fill(enum kind kind)
{
    size_t i;

    for (i = 0; i < sizeof fields; i++)
        fields[i] = kind == PLAIN ? (uint8_t)(i % 200) : kind == ALL_FF ? 0xFF : random_byte();
}

/* The size on the wire of a frame with the first `size` bytes of the payload: each FF of its body counts twice. */
static size_t size_on_wire(size_t size)
{
    const size_t length = size + 5;
    uint8_t sum = (uint8_t)(length + length / 256);
    size_t i, wire = 2 + 2 + (length % 256 == 0xFF);

    for (i = 0; i < 4 + size; i++) {
        sum = (uint8_t)(sum + fields[i]);
        wire += fields[i] == 0xFF ? 2 : 1;
    }
    return wire + (sum == 0xFF ? 2 : 1);
}

static size_t room_of(enum room room, size_t need)
{
    switch (room) {
    case NO_ROOM:
        return 0;
    case SHORT_BY_ONE:
        return need - 1;
    case JUST_RIGHT:
        return need;
    default:
        return OUT_SIZE;
    }
}

static uint32_t expected(size_t size, size_t room, size_t need)
{
    if (size > TROGONREED_MAX_PAYLOAD)
        return TROGONREED_REFUSED_PAYLOAD;
    return (uint32_t)(room < need ? TROGONREED_NO_ROOM + need : need);
}

/* The greatest use so far, and of which call; how many calls were painted, with a near fence, and stepped. */
static struct {
    size_t used, size;
    enum kind kind;
    enum room room;
} most;
static unsigned long painted, near, stepped;

/* Whether a call with a payload of this size uses little and answers right. */
static int is_good(struct fenced stack, enum way first, enum way last, size_t size, enum kind kind, enum room room)
{
    const size_t need = size_on_wire(size), given = room_of(room, need);
    const struct call call = {(void (*)(void))trogonreed_write_frame,
                              7,
                              {fields[0], fields[1], (uint64_t)(fields[2] << 8 | fields[3]), SLICE(fields + 4, size),
                               SLICE(out, given)}};
    const struct measure found = measure(stack, first, last, &call, expected(size, given, need));

    if (found.used > most.used) {
        most.used = found.used;
        most.size = size;
        most.kind = kind;
        most.room = room;
    }
    if (!found.is_right)
        printf("stack: %s payload of %lu bytes, %s: another answer\n", kind_names[kind], (unsigned long)size,
               room_names[room]);
    return found.is_right && !is_too_much(found.used);
}

/*
 * Every size by painting, and with the fence so near that a use of 1,024 bytes dies; some by steps, which are slow: the
 * last two of these are the longest frame and PAYLOAD.
 */
static void test_sizes(struct fenced stack, enum kind kind, enum room room)
{
    static const size_t some[] = {0, 510, 1019, 1020};
    size_t size, i;
    int good = 1;

    for (size = 0; size <= LONGEST; size++, painted++)
        good = is_good(stack, PAINT, INVERSE, size, kind, room) && good;
    test(good, "%s payloads, %s: too much stack, or another answer", kind_names[kind], room_names[room]);
    for (size = 0; good && size <= LONGEST; size++, near++) /* after a use that is too much, this would die */
        good = is_good(stack, FENCE, FENCE, size, kind, room);
    for (good = 1, i = 0; i < sizeof some / sizeof some[0]; i++, stepped++)
        good = is_good(stack, STEPS, STEPS, some[i], kind, room) && good;
    test(good, "%s payloads, %s, by steps: too much stack, or another answer", kind_names[kind], room_names[room]);
}

int main(int argc, char **argv)
{
    const struct fenced stack = fenced_new(STACK_SIZE);
    const unsigned long seed = argc > 1 ? strtoul(argv[1], NULL, 10) : 1;
    int kind, room;

    printf("stack: seed %lu\n", seed);
    /* a state of 0 would stay 0 */
    state = seed == 0 ? UINT64_MAX : seed;
    test_controls(stack);
    for (kind = PLAIN; kind < KINDS; kind++) {
        fill((enum kind)kind);
        for (room = NO_ROOM; room < ROOMS; room++)
            test_sizes(stack, (enum kind)kind, (enum room)room);
    }
    test(painted == 3 * 4 * 1021 && stepped == 3 * 4 * 4, "%lu calls were painted and %lu stepped", painted, stepped);
    test(near == painted || most.used >= TROGONREED_STACK, "%lu calls had a near fence, of %lu", near, painted);
    printf("stack: trogonreed_write_frame: %lu bytes, %u of them arguments; less than %lu are allowed. First with a %s "
           "payload of %lu bytes, %s\n",
           (unsigned long)most.used, (unsigned)size_of_arguments(7), TROGONREED_STACK, kind_names[most.kind],
           (unsigned long)most.size, room_names[most.room]);
    return end();
}
