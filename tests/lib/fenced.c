/* for MAP_ANONYMOUS, which C99 does not have */
#define _DEFAULT_SOURCE
#include "fenced.h"

#include <stdio.h>
#include <stdlib.h>
#include <sys/mman.h>
#include <unistd.h>

static void die(const char *what)
{
    perror(what);
    exit(2);
}

struct fenced fenced_new(size_t least)
{
    const size_t page = (size_t)sysconf(_SC_PAGESIZE);
    struct fenced area;
    uint8_t *whole;

    area.size = (least + page - 1) / page * page;
    whole = mmap(NULL, area.size + 2 * page, PROT_NONE, MAP_PRIVATE | MAP_ANONYMOUS, -1, 0);
    if (whole == MAP_FAILED)
        die("mmap");
    area.first = whole + page;
    fenced_lock(area, 0);
    return area;
}

uint8_t *fenced_place(struct fenced area, enum side side, size_t n)
{
    return side == FRONT ? area.first : area.first + (area.size - n);
}

void fenced_lock(struct fenced area, int locked)
{
    if (mprotect(area.first, area.size, locked ? PROT_READ : PROT_READ | PROT_WRITE) != 0)
        die("mprotect");
}

int fenced_all(struct fenced area, uint8_t value, const uint8_t *place, size_t n)
{
    const uint8_t *p, *end = area.first + area.size;

    for (p = area.first; p != end; p++)
        if ((p < place || p >= place + n) && *p != value)
            return 0;
    return 1;
}
