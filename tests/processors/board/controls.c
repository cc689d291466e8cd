/*
 * Functions that use a known amount of stack are measured, and the answer is known. No figure means anything where a
 * test of this file fails.
 */
#include "controls.h"

#include "layout.h"
#include "painted.h"
#include "print.h"
#include "trogonreed.h"

typedef void (*function)(void);

int is_too_much(size_t used)
{
    return used >= TROGONREED_STACK;
}

/* By both patterns: one of them may have the value that is written. */
static struct use use_of(function control, size_t depth, uint8_t value, size_t count)
{
    static uintptr_t words[MAX_WORDS];
    struct use most = {0, 1}, one;
    int pattern;

    words[0] = depth;
    words[1] = value;
    for (pattern = FIRST; pattern < PATTERNS; pattern++) {
        painted_call((enum pattern)pattern, control, words, count, &one);
        most.used = one.used > most.used ? one.used : most.used;
        most.is_inside = most.is_inside && one.is_inside;
    }
    return most;
}

/* Whatever is written, and whether the bytes above the lowest one are written too. */
static void test_depths(void)
{
    static const size_t depths[] = {1, 2, 3, 7, 8, 64, 100, 1015, 1016, STACK_SIZE - RETURN_ADDRESS};
    size_t i, value;

    for (i = 0; i < sizeof depths / sizeof depths[0]; i++) {
        const size_t want = depths[i] + RETURN_ADDRESS;
        int filled = 1, touched = 1;

        for (value = 0; value < 256; value += 5) {
            const struct use fill = use_of((function)control_fill, depths[i], (uint8_t)value, 2);
            const struct use touch = use_of((function)control_touch, depths[i], (uint8_t)value, 2);

            filled = filled && fill.is_inside && fill.used == want;
            touched = touched && touch.is_inside && touch.used == want;
        }
        test(filled, "a use is not measured right, all bytes written", (uint32_t)want);
        test(touched, "a use is not measured right, the lowest byte written", (uint32_t)want);
    }
}

/* Arguments that do not fit the registers count, and so does what aligns them. */
static void test_words(void)
{
    size_t count;

    for (count = 2; count <= MAX_WORDS; count++) {
        const size_t want = 100 + RETURN_ADDRESS + size_of_arguments(count);

        test(use_of((function)control_fill, 100, 1, count).used == want, "a call is not measured right, of words",
             (uint32_t)count);
    }
}

/* One byte below the stack, and one above it; then the limit. */
static void test_limits(void)
{
    const size_t last = STACK_SIZE - RETURN_ADDRESS, above = (size_t)-RETURN_ADDRESS;

    test(!use_of((function)control_touch, last + 1, 0, 2).is_inside, "a byte below the stack is not seen", 0);
    test(!use_of((function)control_touch, above, 0, 2).is_inside, "a byte above the stack is not seen", 0);
    test(!is_too_much(use_of((function)control_fill, 1023 - RETURN_ADDRESS, 0, 2).used), "too much", 1023);
    test(is_too_much(use_of((function)control_fill, 1024 - RETURN_ADDRESS, 0, 2).used), "not too much", 1024);
    test(use_of((function)control_reserve, 64, 0, 2).used == RETURN_ADDRESS, "what is not written is seen", 64);
}

void test_controls(void)
{
    test_depths();
    test_words();
    test_limits();
}
