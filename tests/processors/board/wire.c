#include "wire.h"

#include "trogonreed.h"

/* Where a walk along a frame stands. */
struct walk {
    const uint8_t *out;
    size_t size;
    uint8_t sum;
    int agrees;
};

static void put_raw(struct walk *walk, uint8_t byte)
{
    walk->agrees = walk->agrees && (walk->out == NULL || walk->out[walk->size] == byte);
    walk->size++;
}

static void put(struct walk *walk, uint8_t byte)
{
    put_raw(walk, byte);
    if (byte == 0xFF)
        put_raw(walk, 0x55);
    walk->sum = (uint8_t)(walk->sum + byte);
}

size_t wire_size(const struct arguments *arguments, const uint8_t *out, int *agrees)
{
    const size_t size = (size_t)arguments->payload_len, length = size + 5;
    struct walk walk = {NULL, 0, 0, 1};
    size_t i;

    walk.out = out;
    put_raw(&walk, 0xFF);
    put_raw(&walk, 0xFF);
    put(&walk, (uint8_t)(length >> 8));
    put(&walk, (uint8_t)length);
    put(&walk, arguments->command);
    put(&walk, arguments->number);
    put(&walk, (uint8_t)(arguments->flags >> 8));
    put(&walk, (uint8_t)arguments->flags);
    for (i = 0; i < size; i++)
        put(&walk, arguments->payload[i]);
    put(&walk, walk.sum);
    *agrees = walk.agrees;
    return walk.size;
}

uint32_t wire_answer(const struct arguments *arguments)
{
    int agrees;
    size_t needed;

    if (arguments->payload_len > TROGONREED_MAX_PAYLOAD)
        return TROGONREED_REFUSED_PAYLOAD;
    needed = wire_size(arguments, NULL, &agrees);
    return (uint32_t)(arguments->out_len < needed ? TROGONREED_NO_ROOM + needed : needed);
}
