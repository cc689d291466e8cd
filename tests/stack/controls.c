/*
 * Whether the painting works: functions that use a known amount of stack are measured, and the answer is known. No
 * figure of tests/stack means anything where a test of this file fails.
 */
/* for fork, which C99 does not have */
#define _DEFAULT_SOURCE
#include "controls.h"

#include <signal.h>
#include <stdio.h>
#include <sys/resource.h>
#include <sys/wait.h>
#include <unistd.h>

#include "measure.h"
#include "switch.h"
#include "trogonreed.h"

enum { RETURN_ADDRESS = 8 };

typedef void (*function)(void);

int is_too_much(size_t used)
{
    return used >= TROGONREED_STACK;
}

/* The use of a control, called with so many words, of which it reads the first two. */
static size_t use_of(struct fenced stack, enum way way, function control, size_t depth, uint8_t value, size_t count)
{
    const struct call call = {control, count, {depth, value}};
    size_t used = 0;

    painted_call(stack, way, &call, &used);
    return used;
}

/* By both patterns: one of them may have the value that is written. */
static size_t painted_use(struct fenced stack, function control, size_t depth, uint8_t value)
{
    const size_t first = use_of(stack, PAINT, control, depth, value, 2);
    const size_t second = use_of(stack, INVERSE, control, depth, value, 2);

    return first > second ? first : second;
}

/* Whatever is written, and whether the bytes above the lowest one are written too. */
static void test_depths(struct fenced stack)
{
    static const size_t depths[] = {1, 7, 8, 64, 100, 1000, 1015, 1016, 4096, STACK_SIZE - RETURN_ADDRESS};
    size_t i, value;

    for (i = 0; i < sizeof depths / sizeof depths[0]; i++) {
        const size_t want = depths[i] + RETURN_ADDRESS;
        int filled = 1, touched = 1;

        for (value = 0; value < 256; value++) {
            filled = filled && painted_use(stack, (function)control_fill, depths[i], (uint8_t)value) == want;
            touched = touched && painted_use(stack, (function)control_touch, depths[i], (uint8_t)value) == want;
        }
        test(filled, "a use of %lu bytes, all written, is not measured right", (unsigned long)want);
        test(touched, "a use of %lu bytes, the lowest one written, is not measured right", (unsigned long)want);
    }
}

/* Arguments that do not fit the registers count, and so does what keeps the stack pointer a multiple of 16. */
static void test_words(struct fenced stack)
{
    size_t count;

    for (count = 2; count <= MAX_WORDS; count++) {
        const size_t want = 100 + RETURN_ADDRESS + size_of_arguments(count);

        test(use_of(stack, STEPS, (function)control_touch, 100, 1, count) == want &&
                 use_of(stack, PAINT, (function)control_fill, 100, 1, count) == want,
             "a call with %lu arguments is not measured right", (unsigned long)count);
    }
}

/* What is set aside and not written is seen by the steps, and by them alone; more than the stack has too. */
static void test_reserved(struct fenced stack)
{
    static const size_t depths[] = {0, 8, 1000, 1016, 8192, STACK_SIZE - RETURN_ADDRESS + 1, 20000};
    size_t i;

    for (i = 0; i < sizeof depths / sizeof depths[0]; i++) {
        const size_t want = depths[i] + RETURN_ADDRESS;

        test(use_of(stack, STEPS, (function)control_reserve, depths[i], 0, 2) == want,
             "a use of %lu bytes, none written, is not measured right", (unsigned long)want);
        test(painted_use(stack, (function)control_reserve, depths[i], 0) == RETURN_ADDRESS,
             "what is not written changes the pattern");
    }
}

/* A use of 1,024 bytes is too much, one of 1,023 is not. */
static void test_limit(struct fenced stack)
{
    test(!is_too_much(painted_use(stack, (function)control_fill, 1015, 0)), "1,023 bytes are too much");
    test(is_too_much(painted_use(stack, (function)control_fill, 1016, 0)), "1,024 bytes are not too much");
}

/* Whether a control dies that touches one byte so far below its return address. */
static int is_killed(struct fenced stack, enum way way, size_t depth)
{
    const struct rlimit none = {0, 0};
    int status = 0;
    pid_t child;

    fflush(stdout);
    child = fork();
    if (child == 0) {
        setrlimit(RLIMIT_CORE, &none);
        use_of(stack, way, (function)control_touch, depth, 0, 2);
        _exit(0);
    }
    return child > 0 && waitpid(child, &status, 0) == child && WIFSIGNALED(status) && WTERMSIG(status) == SIGSEGV;
}

/* The fences: the last byte of the stack may be touched, one more on either side kills. The same with fewer bytes. */
static void test_fences(struct fenced stack)
{
    const size_t last = stack.size - RETURN_ADDRESS, above = (size_t)-RETURN_ADDRESS;

    test(!is_killed(stack, PAINT, last), "the lowest byte of the stack kills");
    test(is_killed(stack, PAINT, last + 1), "a use beyond the stack is not stopped by the fence");
    test(is_killed(stack, PAINT, above), "a byte above the stack is not stopped by the fence");
    test(!is_killed(stack, FENCE, 1000), "1,008 bytes are stopped by the near fence");
    test(is_killed(stack, FENCE, 1001), "1,009 bytes are not stopped by the near fence");
}

static uint32_t seven(void)
{
    return 7;
}

/* Another number than the right one is noticed, in each way. */
static void test_answers(struct fenced stack)
{
    const struct call call = {(function)seven, 0, {0}};
    int way;

    for (way = PAINT; way < WAYS; way++) {
        test(measure(stack, (enum way)way, (enum way)way, &call, 7).is_right, "a right answer is not noticed");
        test(!measure(stack, (enum way)way, (enum way)way, &call, 8).is_right, "a wrong answer is not noticed");
    }
}

void test_controls(struct fenced stack)
{
    test_depths(stack);
    test_words(stack);
    test_reserved(stack);
    test_limit(stack);
    test_fences(stack);
    test_answers(stack);
}
