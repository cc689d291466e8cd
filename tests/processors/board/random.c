#include "random.h"

/* xorshift of 32 bits: shifts and no long products, which a Cortex-M0 does not have */
static uint32_t state = 0;

void begin_random(uint32_t seed)
{
    /* a state of 0 would stay 0 */
    state = seed * 2654435761u ^ 88172645u;
    if (state == 0)
        state = 1;
}

uint32_t below(uint32_t n)
{
    state ^= state << 13;
    state ^= state >> 17;
    state ^= state << 5;
    return ((state >> 16) * n) >> 16;
}

static uint8_t byte(enum kind kind, size_t place)
{
    switch (kind) {
    case PLAIN:
        return (uint8_t)(place & 0x7F);
    case ALL_FF:
        return 0xFF;
    case ANY:
        return (uint8_t)below(256);
    case FF_AND_55:
        return below(2) ? 0xFF : 0x55;
    default:
        return below(4) ? (uint8_t)below(256) : 0xFF;
    }
}

void fill(uint8_t *bytes, size_t n, enum kind kind)
{
    size_t i;

    for (i = 0; i < n; i++)
        bytes[i] = byte(kind, i);
}
