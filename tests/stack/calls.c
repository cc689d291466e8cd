/*
 * The stack that the other calls of a box's main loop use, through the archive of crate stack_driver. Each call is made
 * with inputs that take its different paths, and the number of each answer is known. Prints a line for each call with
 * its greatest use, which has no limit; a wrong answer fails. Last line 'N passed, M failed'.
 */
#include <stdio.h>
#include <string.h>

#include "driver.h"
#include "measure.h"
#include "trogonreed.h"

enum { FINE = 0, STATE = 17, ROOM = 22, SIZE = 32, BUSY = 41, STRAY = 43 };
enum { EMPTY = 61, TOOBIG = 62, PIECES = 63, HEXLINES = 64, TURN = 65, PIECE = 66 };
enum { MORE = 0, FRAME = 1, SHORT = 11, LONG = 12, STUFF = 13, CUT = 14, SUM = 15, STUFFLATE = 19 };

static struct fenced stack;

/* The call that is measured: its name, its greatest use so far, and its arguments on the stack. */
static struct {
    const char *name;
    size_t most, arguments;
    int is_right;
} row;

static void begin_row(const char *name)
{
    row.name = name;
    row.most = 0;
    row.is_right = 1;
}

static void end_row(void)
{
    test(row.is_right && row.most < stack.size, "%s: another answer", row.name);
    printf("stack: %s: %lu bytes, %lu of them arguments\n", row.name, (unsigned long)row.most,
           (unsigned long)row.arguments);
}

static void try(struct call call, enum way last, uint32_t expected)
{
    const struct measure found = measure(stack, PAINT, last, &call, expected);

    if (found.used > row.most)
        row.most = found.used;
    row.arguments = size_of_arguments(call.count);
    row.is_right = row.is_right && found.is_right;
}

#define WORDS(...) (sizeof((uint64_t[]){__VA_ARGS__}) / sizeof(uint64_t)), {__VA_ARGS__}
#define TRY(function, expected, ...) \
    try((struct call){(void (*)(void))(function), WORDS(__VA_ARGS__)}, STEPS, (expected))
#define NOTHING SLICE(NULL, 0)
#define TEXT(bytes) SLICE(bytes, sizeof(bytes) - 1)
#define OUT SLICE(out, OUT_SIZE)
#define TABLE SLICE(table, TABLE_SIZE)

static const uint8_t zeros[2000];

/* The place of the command in a frame on the wire, where its length has no FF. */
enum { COMMAND = 4 };

static void messages(void)
{
    begin_row("message::write, a report or a status");
    TRY(stack_status, FINE, 5, 3, 255, NOTHING, 2, OUT);
    TRY(stack_status, FINE, 5, 0xFFFF, 0xFFFFFFFF, NOTHING, 0xFF, OUT);
    test(out[COMMAND] == 0x05, "another command than that of a report");
    TRY(stack_status, ROOM, 5, 3, 255, NOTHING, 2, NOTHING);
    TRY(stack_status, SIZE, 5, 3, 255, TEXT("x"), 2, OUT);
    TRY(stack_status, FINE, 4, 3, 255, NOTHING, 2, OUT);
    test(out[COMMAND] == 0x04, "another command than that of a status");
    TRY(stack_status, ROOM, 4, 3, 255, NOTHING, 2, SLICE(out, 18));
    end_row();
    begin_row("message::write, device information");
    TRY(stack_information, FINE, 0, SLICE(zeros, 64), 2, OUT);
    test(out[COMMAND] == 0x02, "another command than that of device information");
    TRY(stack_information, ROOM, 0, SLICE(zeros, 64), 2, NOTHING);
    TRY(stack_information, SIZE, 0, SLICE(zeros, 63), 2, OUT);
    end_row();
}

/* Every command with payloads of zeros, and those that are read further with payloads of their own. */
static void replies(void)
{
    static const size_t sizes[] = {0, 1, 2, 5, 6, 7, 9, 11, 66, 74, 106, 1019};
    size_t command, i;

    begin_row("message::reply_frame");
    for (command = 0; command < 256; command++)
        for (i = 0; i < sizeof sizes / sizeof sizes[0]; i++) {
            struct call call = {(void (*)(void))stack_reply, WORDS(command, 9, SLICE(zeros, sizes[i]), OUT)};

            try(call, INVERSE, FINE);
        }
    TRY(stack_reply, FINE, 0x07, 9, NOTHING, OUT);
    TRY(stack_reply, ROOM, 0x07, 9, NOTHING, NOTHING);
    TRY(stack_reply, FINE, 0x01, 9, NOTHING, NOTHING);
    TRY(stack_reply, FINE, 0x03, 9, TEXT("\x02"), NOTHING);
    TRY(stack_reply, FINE, 0x03, 9, TEXT("\x01\x07\x05\x00\x03"), OUT);
    TRY(stack_reply, FINE, 0x03, 9, TEXT("\x01\xFF\xFF\xFF\xFF"), OUT);
    TRY(stack_reply, ROOM, 0x03, 9, TEXT("\x01\xFF\xFF\xFF\xFF"), NOTHING);
    TRY(stack_reply, FINE, 0x0D, 9, TEXT("\xFF\xFF"), OUT);
    TRY(stack_reply, FINE, 0x18, 9, SLICE(zeros, 11), OUT);
    TRY(stack_reply, FINE, 0xEE, 9, SLICE(zeros, 1019), OUT);
    TRY(stack_reply, ROOM, 0xEE, 9, SLICE(zeros, 1019), NOTHING);
    end_row();
}

/* A report is offered at clock 0; a tick; a frame that fits it, or not. */
static void links(void)
{
    begin_row("Link::offer, Link::tick, Link::receive");
    TRY(stack_link, FINE, 7, 0, 0, 0, 0x05, 0, 100, 0x06, 7);
    TRY(stack_link, FINE, 7, 0, 0, 0, 0x05, 0, 200, 0x06, 7);
    TRY(stack_link, STRAY, 7, 0, 0, 0, 0x05, 0, 200, 0x06, 8);
    TRY(stack_link, STRAY, 255, 0, 0, 0, 0x07, 0, 200, 0x08, 255);
    TRY(stack_link, FINE, 7, 0x29, 0, 1, 0x05, 0, 300, 0x2A, 7);
    TRY(stack_link, STRAY, 7, 0x29, 0, 2, 0x05, 0, 300, 0x2A, 7);
    TRY(stack_link, STATE, 7, 0x29, 0, 3, 0x05, 0, 300, 0x2A, 7);
    end_row();
}

/* A table of 5 bytes in pieces of 2, as in PROTOCOL 15; of the third piece one byte is left. */
static void transfers(void)
{
    begin_row("Transfer::begin");
    TRY(stack_begin, FINE, 0, 0, 0, 0, 0, 1, 5, TEXT("\0\0\0\5\0\2ab"), 2, TABLE, OUT);
    TRY(stack_begin, FINE, 5, 2, 1, 0xFF, 0, 1, 0xFF, TEXT("\0\0\0\5\0\0"), 2, TABLE, OUT);
    TRY(stack_begin, ROOM, 0, 0, 0, 0, 0, 1, 5, TEXT("\0\0\0\5\0\2ab"), 2, TABLE, SLICE(out, 20));
    TRY(stack_begin, STATE, 5, 2, 4, 0, 0, 1, 5, TEXT("\0\0\0\5\0\2ab"), 2, TABLE, OUT);
    TRY(stack_begin, SIZE, 0, 0, 0, 0, 0, 1, 5, TEXT("\0\0\0\5\0\2a"), 2, TABLE, OUT);
    TRY(stack_begin, BUSY, 0, 0, 0, 0, 5, 1, 5, TEXT("\0\0\0\5\0\2ab"), 2, TABLE, OUT);
    TRY(stack_begin, EMPTY, 0, 0, 0, 0, 0, 1, 5, TEXT("\0\0\0\5\0\2ab"), 0, TABLE, OUT);
    TRY(stack_begin, TOOBIG, 0, 0, 0, 0, 0, 1, 5, TEXT("\0\0\0\5\0\2ab"), 2, SLICE(table, 4), OUT);
    end_row();
    begin_row("Transfer::store");
    TRY(stack_store, FINE, 5, 2, 0, 6, 0, TEXT("\0\1\0\3a1"), TABLE, OUT);
    TRY(stack_store, FINE, 5, 2, 2, 6, 0, TEXT("\0\3\0\3c"), TABLE, OUT);
    TRY(stack_store, FINE, 5, 2, 1, 6, 0, TEXT("\0\1\0\3\0\0"), TABLE, OUT);
    TRY(stack_store, ROOM, 5, 2, 0, 6, 0, TEXT("\0\1\0\3a1"), TABLE, NOTHING);
    TRY(stack_store, STATE, 5, 0, 0, 6, 0, TEXT("\0\1\0\3a1"), TABLE, OUT);
    TRY(stack_store, SIZE, 5, 2, 0, 6, 0, TEXT("\0\1\0"), TABLE, OUT);
    TRY(stack_store, TOOBIG, 5, 2, 0, 6, 0, TEXT("\0\1\0\3a1"), SLICE(table, 4), OUT);
    TRY(stack_store, HEXLINES, 5, 2, 0, 6, 1, TEXT("\0\1\0\3a1"), TABLE, OUT);
    TRY(stack_store, PIECES, 5, 2, 0, 6, 0, TEXT("\0\1\0\4a1"), TABLE, OUT);
    TRY(stack_store, TURN, 0, 0, 0, 6, 0, TEXT("\0\1\0\3a1"), TABLE, OUT);
    TRY(stack_store, PIECE, 5, 2, 1, 6, 0, TEXT("\0\1\0\3a1"), TABLE, OUT);
    end_row();
    begin_row("Transfer::stop");
    TRY(stack_stop, FINE, 5, 2, 1, 6, NOTHING, OUT);
    TRY(stack_stop, FINE, 0, 0, 0, 6, NOTHING, OUT);
    TRY(stack_stop, ROOM, 5, 2, 1, 6, NOTHING, NOTHING);
    TRY(stack_stop, SIZE, 5, 2, 1, 6, TEXT("x"), OUT);
    TRY(stack_stop, STATE, 5, 2, 4, 6, NOTHING, OUT);
    end_row();
    begin_row("Transfer::cancel");
    TRY(stack_cancel, FINE, 5, 2, 1, 7, 0, 9, OUT);
    TRY(stack_cancel, ROOM, 5, 2, 1, 7, 0, 9, NOTHING);
    TRY(stack_cancel, BUSY, 5, 2, 1, 7, 5, 9, OUT);
    TRY(stack_cancel, STATE, 5, 2, 4, 7, 0, 9, OUT);
    end_row();
}

/* The body of a frame with number 9 and flags 0; `handle` does not look at its sum. */
static const uint8_t *body_of(uint8_t command, const char *payload, size_t size)
{
    static uint8_t body[1026];
    const size_t length = size + 5;
    const uint8_t head[] = {(uint8_t)(length >> 8), (uint8_t)length, command, 9, 0, 0};

    memcpy(body, head, sizeof head);
    memcpy(body + sizeof head, payload, size);
    body[sizeof head + size] = 0;
    return body;
}

/* One frame with its answer, to a box that holds a table of 5 bytes in pieces of 2 of which `stored` are there. */
#define HANDLE(expected, command, payload, stored, waiting, output)                                              \
    TRY(stack_handle, expected, SLICE(body_of(command, payload, sizeof(payload) - 1), 1026), 5, stored, 9, waiting, \
        100, 2, TABLE, output)

static void devices(void)
{
    size_t command;

    begin_row("Device::handle, with a body that the caller holds");
    for (command = 0; command < 256; command++) {
        /* not 19, 1D and 1F, which are refused here under numbers of their own */
        struct call call = {(void (*)(void))stack_handle,
                            WORDS(SLICE(body_of((uint8_t)command, "x", 1), 1026), 5, 1, 9, 5, 100, 2, TABLE,
                                  OUT)};

        if (command != 0x19 && command != 0x1D && command != 0x1F)
            try(call, INVERSE, FINE);
    }
    HANDLE(FINE, 0x06, "", 1, 5, OUT);
    HANDLE(FINE, 0x07, "", 1, 5, OUT);
    HANDLE(ROOM, 0x07, "", 1, 5, NOTHING);
    HANDLE(FINE, 0x01, "", 1, 5, OUT);
    HANDLE(FINE, 0x03, "\x01\x07\x05\x00\x03", 1, 5, OUT);
    HANDLE(FINE, 0xEE, "", 1, 5, OUT);
    HANDLE(FINE, 0x19, "\0\0\0\5\0\2ab", 1, 0, OUT);
    HANDLE(BUSY, 0x19, "\0\0\0\5\0\2ab", 1, 5, OUT);
    HANDLE(ROOM, 0x19, "\0\0\0\5\0\2ab", 1, 0, SLICE(out, 20));
    HANDLE(FINE, 0x1D, "\0\1\0\3a1", 0, 5, OUT);
    HANDLE(FINE, 0x1D, "\0\1\0\3\0\0", 1, 5, OUT);
    HANDLE(TURN, 0x1D, "\0\3\0\3c", 1, 5, OUT);
    HANDLE(FINE, 0x1F, "", 1, 5, OUT);
    HANDLE(STATE, 0x07, "", 4, 5, OUT);
    end_row();
}

#define FEED(expected, bytes) TRY(stack_feed, expected, TEXT(bytes))
#define ONE_TURN(expected, bytes, output) TRY(stack_turn, expected, TEXT(bytes), 100, 2, TABLE, output)
#define BEAT "\xFF\xFF\x00\x05\x07\x01\x00\x00"

/* The longest frame, as the writer writes it. */
static size_t longest_frame(uint8_t wire[TROGONREED_MAX_FRAME])
{
    static uint8_t payload[TROGONREED_MAX_PAYLOAD];

    memset(payload, 0xFF, sizeof payload);
    return trogonreed_write_frame(0xEE, 0xFF, 0xFFFF, payload, sizeof payload, wire, TROGONREED_MAX_FRAME);
}

static void readers(void)
{
    static uint8_t wire[TROGONREED_MAX_FRAME];
    const size_t size = longest_frame(wire);

    begin_row("Reader::feed");
    FEED(FRAME, BEAT "\x0D");
    FEED(SUM, BEAT "\x0E");
    FEED(MORE, BEAT);
    FEED(CUT, BEAT "\xFF\xFF");
    FEED(STUFFLATE, BEAT "\xFF\x00");
    FEED(STUFF, "\xFF\xFF\x00\x05\x07\xFF\x00");
    FEED(SHORT, "noise \xFF\xFF\x00\x04");
    FEED(LONG, "noise \xFF\xFF\x04\x01");
    TRY(stack_feed, FRAME, SLICE(wire, size));
    TRY(stack_feed, MORE, NOTHING);
    end_row();
    begin_row("Reader::feed and Device::handle, a turn of the main loop");
    ONE_TURN(FINE, BEAT "\x0D", OUT);
    ONE_TURN(ROOM, BEAT "\x0D", NOTHING);
    ONE_TURN(FINE, BEAT "\x0E", OUT);
    ONE_TURN(FINE, "\xFF\xFF\x00\x0D\x19\x05\0\0" "\0\0\0\5\0\2ab" "\xF5", OUT);
    ONE_TURN(TURN, "\xFF\xFF\x00\x0B\x1D\x05\0\0" "\0\1\0\3a1" "\xC3", OUT);
    TRY(stack_turn, FINE, SLICE(wire, size), 100, 2, TABLE, OUT);
    end_row();
}

int main(void)
{
    stack = fenced_new(STACK_SIZE);
    messages();
    replies();
    links();
    transfers();
    devices();
    readers();
    return end();
}
