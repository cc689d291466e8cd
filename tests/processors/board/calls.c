/* Random calls, as the compiler makes them from the header; the second implementation reads the lines. */
#include "call.h"
#include "print.h"
#include "random.h"
#include "tests.h"
#include "trogonreed.h"
#include "wire.h"

enum { OVER = 8 };

static uint16_t two_bytes(enum kind kind)
{
    uint8_t bytes[2];

    fill(bytes, 2, kind);
    return (uint16_t)(bytes[0] << 8 | bytes[1]);
}

/* The number that makes the sum of the frame FF, so that a 55 follows it; by chance that is rare. */
static uint8_t number_for_sum(const struct arguments *arguments)
{
    const size_t length = (size_t)arguments->payload_len + 5;
    size_t sum = length + (length >> 8) + arguments->command + arguments->flags + (arguments->flags >> 8), i;

    for (i = 0; i + 5 < length; i++)
        sum += payload[i];
    return (uint8_t)(0xFF - sum);
}

/* Sizes: mostly short, since lines are; from 1,010 on, where the limit is, often too. */
static void choose(struct arguments *arguments)
{
    const enum kind kind = (enum kind)below(KINDS);

    arguments->command = (uint8_t)two_bytes(MANY_FF);
    arguments->number = (uint8_t)two_bytes(MANY_FF);
    arguments->flags = two_bytes(MANY_FF);
    arguments->payload_len = below(3) ? below(40) : below(2) ? below(LONGEST + 1) : 1010 + below(LONGEST - 1010 + 1);
    arguments->payload = payload;
    fill(payload, (size_t)arguments->payload_len, kind);
    if (below(8) == 0)
        arguments->number = number_for_sum(arguments);
}

/* From none to some more than the frame needs, often just enough or one less. */
static uint32_t choose_room(const struct arguments *arguments)
{
    int agrees;
    uint32_t needed;

    if (arguments->payload_len > TROGONREED_MAX_PAYLOAD)
        return below(TROGONREED_MAX_FRAME + 1);
    needed = (uint32_t)wire_size(arguments, NULL, &agrees);
    switch (below(5)) {
    case 0:
        return 0;
    case 1:
        return needed - 1;
    case 2:
        return needed;
    default:
        return below(needed + OVER + 1);
    }
}

static void print_call(const struct arguments *arguments, uint32_t returned)
{
    const uint32_t numbers[] = {arguments->command, arguments->number, arguments->flags, (uint32_t)arguments->out_len};
    size_t i;

    for (i = 0; i < sizeof numbers / sizeof numbers[0]; i++) {
        print_number(numbers[i]);
        print_text(" ");
    }
    print_hex(payload, (size_t)arguments->payload_len);
    print_text(" ");
    print_number(returned);
    print_text(" ");
    print_hex(arguments->out, (size_t)arguments->out_len);
    print_text("\n");
}

void test_random(uint32_t count)
{
    struct arguments arguments;
    const char *wrong = NULL;
    uint32_t i, returned;

    for (i = 0; i < count && wrong == NULL; i++) {
        choose(&arguments);
        arguments.out_len = choose_room(&arguments);
        wrong = guarded_call(call_declared, &arguments, &returned);
        print_call(&arguments, returned);
    }
    test(wrong == NULL, wrong == NULL ? "" : wrong, i);
}
