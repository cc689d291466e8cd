/* A library for LD_PRELOAD: reads and writes that are interrupted, must wait, or move few bytes.
   The program has no signal handler, so that a signal alone interrupts none of its calls. */
#define _GNU_SOURCE
#include <dlfcn.h>
#include <errno.h>
#include <stdio.h>
#include <stdlib.h>
#include <unistd.h>

typedef ssize_t (*call)();

static unsigned calls[2], faults;

/* Of three calls one is interrupted, one would have to wait, and one moves at most seven bytes. */
static int fails(unsigned *count) {
    unsigned turn = (*count)++ % 3;
    faults += turn < 2;
    errno = turn == 0 ? EINTR : EAGAIN;
    return turn < 2;
}

static size_t few(size_t size) {
    return size < 7 ? size : 7;
}

ssize_t read(int fd, void *data, size_t size) {
    call real = (call)dlsym(RTLD_NEXT, "read");
    return fd != 0 ? real(fd, data, size) : fails(&calls[0]) ? -1 : real(fd, data, few(size));
}

ssize_t write(int fd, const void *data, size_t size) {
    call real = (call)dlsym(RTLD_NEXT, "write");
    return fd != 1 ? real(fd, data, size) : fails(&calls[1]) ? -1 : real(fd, data, few(size));
}

/* So that a test sees whether the program was run with this. */
__attribute__((destructor)) static void print_faults(void) {
    dprintf(2, "%u faults\n", faults);
}
