#include "painted.h"

enum { CELL = 4, TOP = (ZONE + STACK_SIZE) / CELL, CELLS = TOP + ZONE / CELL };

/* Some more than are used: they begin at a multiple of 16. */
static uint32_t memory[CELLS + 16 / CELL];

static uint32_t *first_cell(void)
{
    return (uint32_t *)(((uintptr_t)memory + 15) & ~(uintptr_t)15);
}

/* A pattern without a period that a stack frame could have. */
static uint32_t painted(enum pattern pattern, size_t place)
{
    const uint32_t cell = (uint32_t)(place + 1) * 0x9E3779B1u;

    return pattern == INVERSE ? ~cell : cell;
}

/* The place of the lowest byte that changed, from a cell on; where none did, it is the end. */
static size_t changed(const uint32_t *cells, enum pattern pattern, size_t from, size_t end)
{
    size_t i = from, byte = 0;

    while (i < end && cells[i] == painted(pattern, i))
        i++;
    if (i < end) {
        const uint32_t differs = cells[i] ^ painted(pattern, i);

        while ((differs >> 8 * byte & 0xFF) == 0) /* the low byte comes first */
            byte++;
    }
    return i * CELL + byte;
}

uintptr_t painted_call(enum pattern pattern, void (*function)(void), const uintptr_t *words, size_t count,
                       struct use *use)
{
    uint32_t *const cells = first_cell();
    uintptr_t returned;
    size_t i;

    for (i = 0; i < CELLS; i++)
        cells[i] = painted(pattern, i);
    returned = switch_call(cells + TOP, function, words, count);
    use->used = TOP * CELL - changed(cells, pattern, 0, TOP);
    use->is_inside = use->used <= STACK_SIZE && changed(cells, pattern, TOP, CELLS) == CELLS * CELL;
    return returned;
}
