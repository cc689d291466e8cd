/*
 * An image for the board of examples/cortex-m3 with frames that its box never sends. It has the same start, serial line
 * and switches; box.py knows what it has to send.
 *
 * First no event is taken until one is lost, and the others are sent as payload. Then each leaf is a call of the writer
 * from a list. What it wrote is sent, and after it a frame with the number that it returned. At last an event makes it
 * use much of its stack, so that the measure of it can be tested.
 */
#include "serial.h"
#include "switches.h"
#include "trogonreed.h"

enum { EVENTS = 0x7D, RETURNED = 0x7E };
enum { UNTOUCHED = 0xA5, LONGEST = TROGONREED_MAX_PAYLOAD + 1, MUCH = 1500 };

struct call {
    uint8_t command, number;
    uint16_t flags, size, room;
};

static const struct call calls[] = {
    {0x07, 0xF3, 0x0000, 0, TROGONREED_MAX_FRAME}, /* the sum is FF */
    {0x07, 0x01, 0x0000, 0, TROGONREED_MAX_FRAME},
    {0xFF, 0xFF, 0xFFFF, 0, TROGONREED_MAX_FRAME},
    {0xFF, 0xFF, 0xFFFF, 1, TROGONREED_MAX_FRAME},
    {0xFF, 0xFF, 0xFFFF, 2, TROGONREED_MAX_FRAME},
    {0xFF, 0xFF, 0xFFFF, 9, TROGONREED_MAX_FRAME},
    {0xFF, 0xFF, 0xFFFF, 250, TROGONREED_MAX_FRAME}, /* the length is FF, too */
    {0xFF, 0xFF, 0xFFFF, 255, TROGONREED_MAX_FRAME},
    {0xFF, 0xFF, 0xFFFF, 1018, TROGONREED_MAX_FRAME},
    {0xFF, 0xFF, 0xFFFF, 1019, TROGONREED_MAX_FRAME},
    {0x05, 0xFF, 0x0000, 1019, TROGONREED_MAX_FRAME},
    {0x05, 0x00, 0x0000, 1020, TROGONREED_MAX_FRAME}, /* PAYLOAD */
    {0xFF, 0xFF, 0xFFFF, 1020, 0},                    /* PAYLOAD, before ROOM */
    {0x07, 0x01, 0x0000, 0, 9},
    {0x07, 0x01, 0x0000, 0, 8}, /* ROOM from here on */
    {0x07, 0xF3, 0x0000, 0, 9}, /* no room for the 55 after the sum */
    {0x07, 0x01, 0x0000, 0, 0},
    {0xFF, 0xFF, 0xFFFF, 9, 18},
    {0xFF, 0xFF, 0xFFFF, 1019, 1026},
};
enum { CALLS = sizeof calls / sizeof calls[0] };

static uint8_t ones[LONGEST];
static uint8_t out[TROGONREED_MAX_FRAME];

/* It has a value from the start, so that it lies in memory that startup.c has to fill. */
static uint8_t number = 0xF0;

/* The pointer is to volatile so that the loop does not become a call of the C library, which there is not. */
static void fill(volatile uint8_t *bytes, uint32_t count, uint8_t value)
{
    uint32_t i;

    for (i = 0; i < count; i++)
        bytes[i] = value;
}

static uint8_t is_untouched(uint32_t from)
{
    uint32_t i;

    for (i = from; i < sizeof out; i++)
        if (out[i] != UNTOUCHED)
            return 0;
    return 1;
}

static void send(uint8_t command, const uint8_t *payload, uint32_t size)
{
    static uint8_t frame[2 + 2 * (SWITCHES_WAITING + 7)];
    const uint32_t count = trogonreed_write_frame(command, number++, 0, payload, size, frame, sizeof frame);

    if (!trogonreed_is_refused(count))
        serial_send(frame, count);
}

static void send_events(void)
{
    static uint8_t events[SWITCHES_WAITING];
    uint32_t i;

    while (!switches_lost())
        ;
    for (i = 0; i < SWITCHES_WAITING; i++)
        events[i] = (uint8_t)switches_take();
    send(EVENTS, events, SWITCHES_WAITING);
}

/* The number returned has four bytes; a fifth says whether the writer left alone what is not the frame. */
static void make_call(const struct call *call)
{
    uint8_t payload[5];
    uint32_t returned, count;

    fill(out, sizeof out, UNTOUCHED);
    returned = trogonreed_write_frame(call->command, call->number, call->flags, ones, call->size, out, call->room);
    count = trogonreed_is_refused(returned) ? 0 : returned;
    serial_send(out, count);
    payload[0] = (uint8_t)(returned >> 24);
    payload[1] = (uint8_t)(returned >> 16);
    payload[2] = (uint8_t)(returned >> 8);
    payload[3] = (uint8_t)returned;
    payload[4] = is_untouched(count);
    send(RETURNED, payload, sizeof payload);
}

static void use_much_stack(void)
{
    volatile uint8_t much[MUCH];

    fill(much, MUCH, UNTOUCHED);
}

int main(void)
{
    uint32_t i;

    fill(ones, LONGEST, 0xFF);
    serial_start();
    switches_start();
    send_events();
    for (i = 0; i < CALLS; i++)
        if (switches_take() == LEAF)
            make_call(&calls[i]);
    (void)switches_take();
    use_much_stack();
    send(RETURNED, 0, 0);
    for (;;)
        (void)switches_take();
}
