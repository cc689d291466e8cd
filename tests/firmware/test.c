/*
 * The writer as C calls it, on the counted examples (PROTOCOL 11) and at its limits. [SEED]: runs the tests, last line
 * 'N passed, M failed'; frames to ask about are random. random SEED COUNT: prints random calls for another program to
 * check (random.c).
 */
#include <stdio.h>
#include <stdlib.h>
#include <string.h>

#include "frames.h"
#include "trogonreed.h"

static unsigned long passed, failed;

static void test(int holds, const char *what)
{
    if (holds) {
        passed++;
    } else {
        failed++;
        printf("firmware: %s\n", what);
    }
}

/* A frame, and the bytes that it has to be on the wire. */
struct example {
    const char *name;
    struct frame frame;
    const uint8_t *wire;
    size_t wire_len;
};

/* One call: what it returns, the output, and what is around it. `count` is 0 for a refusal, which writes nothing. */
static int holds(struct memory memory, const struct example *e, size_t room, uint32_t returned, size_t count)
{
    const char *wrong = NULL;
    int side;
    uint8_t *out;

    for (side = FRONT; side < SIDES; side++) {
        if (call(memory, (enum side)side, &e->frame, room, &out) != returned)
            wrong = "another number is returned";
        else if (count > 0 && memcmp(out, e->wire, count) != 0)
            wrong = "other bytes are written";
        else if (!fenced_all(memory.out, UNTOUCHED, out, count))
            wrong = "bytes change that have to stay";
    }
    if (wrong != NULL)
        printf("firmware: %s, %lu bytes of room: %s\n", e->name, (unsigned long)room, wrong);
    return wrong == NULL;
}

/* Every room from none to some more than the frame needs, and what holds any frame; stops where something is wrong. */
static void test_rooms(struct memory memory, const struct example *e)
{
    const size_t need = e->wire_len;
    size_t room;
    int good = 1;

    for (room = 0; good && room < need; room++)
        good = holds(memory, e, room, (uint32_t)(TROGONREED_NO_ROOM + need), 0);
    for (room = need; good && room < need + 10; room++)
        good = holds(memory, e, room, (uint32_t)need, need);
    good = good && holds(memory, e, TROGONREED_MAX_FRAME, (uint32_t)need, need);
    good = good && holds(memory, e, MOST_OUT, (uint32_t)need, need);
    test(good, e->name);
}

static const uint8_t heartbeat[] = {0xFF, 0xFF, 0x00, 0x05, 0x07, 0x01, 0x00, 0x00, 0x0D};
static const uint8_t number_ff[] = {0xFF, 0xFF, 0x00, 0x05, 0x07, 0xFF, 0x55, 0x00, 0x00, 0x0B};
static const uint8_t sum_ff[] = {0xFF, 0xFF, 0x00, 0x05, 0x07, 0xF3, 0x00, 0x00, 0xFF, 0x55};
static const uint8_t status[] = {0x04, 0x05, 0x00, 0x03, 0x00, 0x00, 0x00, 0xFF, 0x00};
static const uint8_t report[] = {0xFF, 0xFF, 0x00, 0x0E, 0x05, 0x02, 0x00, 0x00, 0x04, 0x05,
                                 0x00, 0x03, 0x00, 0x00, 0x00, 0xFF, 0x55, 0x00, 0x20};
static const uint8_t ff_55[] = {0xFF, 0x55, 0xFF};
static const uint8_t flags_ff_55[] = {0xFF, 0xFF, 0x00, 0x08, 0x07, 0x01, 0xFF, 0x55,
                                      0x55, 0xFF, 0x55, 0x55, 0xFF, 0x55, 0xB7};

/* Examples 1 to 4, and one with FF and 55 side by side in flags and payload. */
static void test_examples(struct memory memory)
{
    static const struct example examples[] = {
        {"example 1", {0x07, 0x01, 0x0000, NULL, 0}, heartbeat, sizeof heartbeat},
        {"example 2", {0x07, 0xFF, 0x0000, NULL, 0}, number_ff, sizeof number_ff},
        {"example 3", {0x07, 0xF3, 0x0000, NULL, 0}, sum_ff, sizeof sum_ff},
        {"example 4", {0x05, 0x02, 0x0000, status, sizeof status}, report, sizeof report},
        {"FF and 55", {0x07, 0x01, 0xFF55, ff_55, sizeof ff_55}, flags_ff_55, sizeof flags_ff_55},
    };
    size_t i;

    for (i = 0; i < sizeof examples / sizeof examples[0]; i++)
        test_rooms(memory, &examples[i]);
}

static uint8_t zeros[1019], ones[1019], nearly[1019];

/* A frame whose wire form is a head, so many times one thing, and a tail. */
struct long_example {
    const char *name;
    struct frame frame;
    const char *head;
    size_t head_len;
    const char *each;
    size_t each_len;
    size_t times;
    const char *tail;
    size_t tail_len;
};

/* Example 12, 1,019 bytes, and the longest frame; 1,018 bytes, where the length has an FF. */
static const struct long_example long_examples[] = {
    {"1,019 zeros", {0x07, 0x01, 0, zeros, 1019}, "\xFF\xFF\x04\x00\x07\x01\x00\x00", 8, "\x00", 1, 1019, "\x0C", 1},
    {"1,019 FF", {0x07, 0x01, 0, ones, 1019}, "\xFF\xFF\x04\x00\x07\x01\x00\x00", 8, "\xFF\x55", 2, 1019, "\x11", 1},
    {"1,018 FF", {0x07, 0x01, 0, ones, 1018}, "\xFF\xFF\x03\xFF\x55\x07\x01\x00\x00", 9,
     "\xFF\x55", 2, 1018, "\x10", 1},
    {"2,051 bytes", {0xFF, 0xFF, 0xFFFF, nearly, 1019}, "\xFF\xFF\x04\x00\xFF\x55\xFF\x55\xFF\x55\xFF\x55\xF9", 13,
     "\xFF\x55", 2, 1018, "\xFF\x55", 2},
};

static void test_long(struct memory memory)
{
    uint8_t wire[2100];
    size_t i, k;

    memset(ones, 0xFF, sizeof ones);
    memset(nearly, 0xFF, sizeof nearly);
    nearly[0] = 0xF9;
    for (i = 0; i < sizeof long_examples / sizeof long_examples[0]; i++) {
        const struct long_example *l = &long_examples[i];
        struct example e = {l->name, l->frame, wire, l->head_len};

        memcpy(wire, l->head, l->head_len);
        for (k = 0; k < l->times; k++, e.wire_len += l->each_len)
            memcpy(wire + e.wire_len, l->each, l->each_len);
        memcpy(wire + e.wire_len, l->tail, l->tail_len);
        e.wire_len += l->tail_len;
        test_rooms(memory, &e);
    }
}

/* Example 12, 1,020 bytes: PAYLOAD, whatever the room. */
static void test_too_long(struct memory memory, const char *name, size_t payload_len)
{
    static uint8_t payload[MOST_PAYLOAD];
    static const size_t rooms[] = {0, 9, 1027, 1028, 1029, 2053, 2054, MOST_OUT};
    const struct example e = {name, {0x07, 0x01, 0, payload, payload_len}, NULL, 0};
    size_t i;
    int good = 1;

    for (i = 0; good && i < sizeof rooms / sizeof rooms[0]; i++)
        good = holds(memory, &e, rooms[i], TROGONREED_REFUSED_PAYLOAD, 0);
    test(good, name);
}

/* A null pointer is not read or written where its length is 0. */
static void test_null(void)
{
    static uint8_t payload[1020];
    uint8_t out[sizeof heartbeat];

    test(trogonreed_write_frame(0x07, 0x01, 0, NULL, 0, out, sizeof out) == sizeof heartbeat,
         "null payload: not written");
    test(memcmp(out, heartbeat, sizeof out) == 0, "null payload: other bytes are written");
    test(trogonreed_write_frame(0x07, 0x01, 0, NULL, 0, NULL, 0) == 131072 + 9, "both null: not ROOM");
    test(trogonreed_write_frame(0x07, 0x01, 0, payload, 1019, NULL, 0) == 131072 + 1028, "null output: not ROOM");
    test(trogonreed_write_frame(0x07, 0x01, 0, payload, 1020, NULL, 0) == TROGONREED_REFUSED_PAYLOAD,
         "null output: not PAYLOAD");
}

/* The header's bound for a payload of n bytes, where every byte but the length and the sum is FF. */
static void test_bound(void)
{
    static uint8_t out[TROGONREED_MAX_FRAME];
    size_t n;
    int good = 1;

    memset(ones, 0xFF, sizeof ones);
    for (n = 0; good && n <= TROGONREED_MAX_PAYLOAD; n++)
        good = !trogonreed_is_refused(trogonreed_write_frame(0xFF, 0xFF, 0xFFFF, ones, n, out, 2 + 2 * (n + 7)));
    test(good, "2 + 2 * (n + 7) bytes are not enough for n bytes of payload");
}

/* The header's numbers are those of the rules. */
static void test_header(void)
{
    test(TROGONREED_REFUSED == 65536 && TROGONREED_PAYLOAD == 21, "header: other numbers");
    test(TROGONREED_REFUSED_PAYLOAD == 65557 && TROGONREED_NO_ROOM == 131072, "header: other refusals");
    test(TROGONREED_MAX_PAYLOAD == 1019 && TROGONREED_MAX_FRAME == 2 + 2 * (1019 + 7), "header: other limits");
    test(TROGONREED_STACK == 1024, "header: another limit of the stack");
    test(!trogonreed_is_refused(65535) && trogonreed_is_refused(65536), "header: another test for a refusal");
    test(trogonreed_is_refused(65557) && trogonreed_is_refused(131081), "header: a refusal is not one");
    test(trogonreed_needed(131081) == 9 && trogonreed_needed(133126) == 2054, "header: another length for ROOM");
    test(trogonreed_needed(0) == 0 && trogonreed_needed(2054) == 0 && trogonreed_needed(65557) == 0 &&
             trogonreed_needed(131071) == 0 && trogonreed_needed(131072) == 0,
         "header: a length for what is not ROOM");
}

/* Asks about one frame. */
static void test_asked(struct memory memory, const struct frame *frame)
{
    const char *fault = asking_fault(memory, frame);

    if (fault != NULL)
        printf("firmware: command %u, number %u, flags %u, %lu bytes of payload: %s\n", frame->command, frame->number,
               frame->flags, (unsigned long)frame->payload_len, fault);
    test(fault == NULL, "asking");
}

/* Payloads of one size, filled in each way. */
static void test_asking_of(struct memory memory, size_t size)
{
    uint8_t payload[LONGEST];
    int kind;

    for (kind = ANY; kind < KINDS; kind++) {
        const struct frame frame = {0x05, 0x02, 0, payload, size};

        fill_random(payload, size, (enum kind)kind);
        test_asked(memory, &frame);
    }
}

/* Every short payload, the longest and one byte more; then random frames. */
static void test_asking(struct memory memory, uint64_t seed)
{
    enum { SHORT = 64, RANDOM = 100 };
    uint8_t payload[LONGEST];
    size_t i;

    printf("firmware: asking, seed %lu, %d random frames\n", (unsigned long)seed, RANDOM);
    begin_random(seed);
    for (i = 0; i <= SHORT; i++)
        test_asking_of(memory, i);
    test_asking_of(memory, 1019);
    test_asking_of(memory, 1020);
    for (i = 0; i < RANDOM; i++) {
        const struct frame frame = frame_random(payload);

        test_asked(memory, &frame);
    }
}

int main(int argc, char **argv)
{
    struct memory memory;

    if (argc == 4 && strcmp(argv[1], "random") == 0)
        return print_random(strtoull(argv[2], NULL, 10), strtoul(argv[3], NULL, 10));
    memory = memory_new();
    test_examples(memory);
    test_long(memory);
    test_too_long(memory, "1,020 bytes", 1020);
    test_too_long(memory, "65,536 bytes", MOST_PAYLOAD);
    test_null();
    test_bound();
    test_header();
    test_asking(memory, argc > 1 ? strtoull(argv[1], NULL, 10) : 1);
    printf("%lu passed, %lu failed\n", passed, failed);
    return failed == 0 ? 0 : 1;
}
