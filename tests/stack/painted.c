/* for what C99 does not have: signals with a stack of their own, and the registers in their context */
#define _GNU_SOURCE
#include "painted.h"

#include <signal.h>
#include <stdio.h>
#include <stdlib.h>
#include <ucontext.h>
#include <x86intrin.h>

#include "switch.h"

/* On x86-64. */
enum { WORD = 8, IN_REGISTERS = 6 };

/* The processor's flag that stops it after each instruction. */
#define TRAP_FLAG UINT64_C(0x100)

size_t size_of_arguments(size_t count)
{
    const size_t words = count > IN_REGISTERS ? count - IN_REGISTERS : 0;

    return (words + words % 2) * WORD;
}

/* A pattern without a period that a stack frame could have. */
static uint8_t pattern(enum way way, size_t place)
{
    const uint8_t byte = (uint8_t)((place * UINT64_C(0x9E3779B97F4A7C15)) >> 56);

    return way == INVERSE ? (uint8_t)~byte : byte;
}

static void paint(struct fenced stack, enum way way)
{
    size_t i;

    for (i = 0; i < stack.size; i++)
        stack.first[i] = pattern(way, i);
}

/* The bytes from the lowest one that changed up to the top. */
static size_t changed(struct fenced stack, enum way way)
{
    size_t i = 0;

    while (i < stack.size && stack.first[i] == pattern(way, i))
        i++;
    return stack.size - i;
}

static uintptr_t top;
static volatile uintptr_t lowest; /* the handler writes it */

static void note(int signal, siginfo_t *info, void *context)
{
    const uintptr_t here = (uintptr_t)((ucontext_t *)context)->uc_mcontext.gregs[REG_RSP];

    (void)signal, (void)info;
    if (here < lowest) /* main's stack is above this one */
        lowest = here;
}

/* The handler runs on a stack of its own: it must not write to the one that is measured. */
static void catch_steps(void)
{
    static uint8_t own[1 << 16];
    stack_t stack = {0};
    struct sigaction action = {0};

    stack.ss_sp = own;
    stack.ss_size = sizeof own;
    action.sa_sigaction = note;
    action.sa_flags = SA_SIGINFO | SA_ONSTACK;
    if (sigaltstack(&stack, NULL) != 0 || sigaction(SIGTRAP, &action, NULL) != 0) {
        perror("signals");
        exit(2);
    }
}

static uint64_t stepped(struct fenced stack, const struct call *call, size_t *used)
{
    uint64_t returned;

    lowest = top = (uintptr_t)(stack.first + stack.size);
    catch_steps();
    __writeeflags(__readeflags() | TRAP_FLAG);
    returned = switch_call(stack.first + stack.size, call->function, call->words, call->count);
    __writeeflags(__readeflags() & ~TRAP_FLAG);
    *used = top - lowest;
    return returned;
}

uint64_t painted_call(struct fenced stack, enum way way, const struct call *call, size_t *used)
{
    uint64_t returned;

    if (way == STEPS)
        return stepped(stack, call, used);
    if (way == FENCE) {
        *used = 0;
        return switch_call(stack.first + FENCED, call->function, call->words, call->count);
    }
    paint(stack, way);
    returned = switch_call(stack.first + stack.size, call->function, call->words, call->count);
    *used = changed(stack, way);
    return returned;
}
