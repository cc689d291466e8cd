/*
 * The stack that the writer uses, and its answers: payloads of every size from 0 to one byte too many, in outputs that
 * are too small, just right and ample. The use that a call is printed with is the greatest of all.
 */
#include "controls.h"
#include "layout.h"
#include "painted.h"
#include "print.h"
#include "random.h"
#include "tests.h"
#include "trogonreed.h"
#include "wire.h"

enum { LARGEST = 1020 };
enum room { NO_ROOM, SHORT_BY_ONE, JUST_RIGHT, AMPLE, ROOMS };

static const char *const room_names[ROOMS] = {"no room", "one byte short", "just right", "ample room"};

static struct use most;

/* Twice, on both patterns; the second call has the output of the first to write on. */
static uint32_t call_painted(const struct arguments *arguments)
{
    static uintptr_t words[MAX_WORDS];
    const size_t count = words_of(arguments, words);
    uint32_t returned[PATTERNS];
    struct use use;
    int pattern;

    for (pattern = FIRST; pattern < PATTERNS; pattern++) {
        returned[pattern] = (uint32_t)painted_call((enum pattern)pattern, (void (*)(void))trogonreed_write_frame,
                                                   words, count, &use);
        most.used = use.used > most.used ? use.used : most.used;
        most.is_inside = most.is_inside && use.is_inside;
    }
    return returned[FIRST] == returned[INVERSE] ? returned[FIRST] : TROGONREED_REFUSED;
}

static size_t room_of(enum room room, size_t needed)
{
    return room == NO_ROOM ? 0 : room == SHORT_BY_ONE ? needed - 1 : room == JUST_RIGHT ? needed : MOST_ROOM;
}

/* What is wrong with a call, or NULL. Its fields and its payload are the first bytes of `payload`. */
static const char *wrong_with(size_t size, enum room room)
{
    struct arguments arguments = {payload[0], payload[1], 0, payload, 0, NULL, 0};
    const char *wrong;
    uint32_t returned, wanted;
    int agrees = 1;

    arguments.flags = (uint16_t)(payload[2] << 8 | payload[3]);
    arguments.payload_len = size;
    arguments.out_len = room_of(room, wire_size(&arguments, NULL, &agrees));
    wanted = wire_answer(&arguments);
    wrong = guarded_call(call_painted, &arguments, &returned);
    if (returned != wanted)
        return "another answer";
    if (!trogonreed_is_refused(returned))
        wire_size(&arguments, arguments.out, &agrees);
    return agrees ? wrong : "another frame";
}

static void test_room(enum room room)
{
    const char *wrong = NULL;
    size_t size;

    for (size = 0; size <= LARGEST && wrong == NULL; size++)
        wrong = wrong_with(size, room);
    if (wrong != NULL) {
        print_text("board: ");
        print_text(room_names[room]);
        print_text("\n");
    }
    test(wrong == NULL, wrong == NULL ? "" : wrong, (uint32_t)size - 1);
}

void test_sizes(void)
{
    uintptr_t words[MAX_WORDS];
    const struct arguments none = {0, 0, 0, NULL, 0, NULL, 0};
    int kind, room;

    most.is_inside = 1;
    for (kind = PLAIN; kind <= ANY; kind++) {
        fill(payload, LARGEST, (enum kind)kind);
        for (room = NO_ROOM; room < ROOMS; room++)
            test_room((enum room)room);
    }
    test(most.is_inside, "bytes beside the stack are changed", (uint32_t)most.used);
    test(!is_too_much(most.used), "too much stack is used", (uint32_t)most.used);
    print_text("board: stack ");
    print_number((uint32_t)most.used);
    print_text(", arguments ");
    print_number((uint32_t)size_of_arguments(words_of(&none, words)));
    print_text(", return address ");
    print_number(RETURN_ADDRESS);
    print_text("\n");
}
