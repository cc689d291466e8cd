/*
 * Arguments that are wider than they look.
 *
 * A parameter of 8 or 16 bits is passed in a register of 32 or 64. On Arm and RISC-V the caller extends it, and a
 * function that is compiled from C may rely on that; on AArch64 and x86-64 the bits above are open, and compilers
 * differ. So the writer is also called with other bits there. C does not allow a call through another type of function.
 * It is tried since the archive and its caller are made by different compilers: one that relies on less fits them all.
 *
 * A length has 64 bits, also where an address has 32: one that looks small in its low half is not small.
 */
#include "call.h"
#include "print.h"
#include "random.h"
#include "tests.h"
#include "trogonreed.h"
#include "wire.h"

typedef uint32_t (*wide)(uintptr_t command, uintptr_t number, uintptr_t flags, const uint8_t *bytes, uint64_t size,
                         uint8_t *out, uint64_t room);

/* What is above the low bits; all of a register. */
static uintptr_t above;

static uint32_t call_wide(const struct arguments *arguments)
{
    /* volatile: a compiler that sees which function it is makes no call at all, as C allows */
    void (*volatile function)(void) = (void (*)(void))trogonreed_write_frame;
    const wide writer = (wide)function;

    return writer(above << 8 | arguments->command, above << 8 | arguments->number, above << 16 | arguments->flags,
                  arguments->payload, arguments->payload_len, arguments->out, arguments->out_len);
}

/* What is wrong with a call, or NULL; the payload has 9 bytes and there is room for 40. */
static const char *wrong_with(way way)
{
    struct arguments arguments = {0x05, 0xFF, 0x0120, payload, 9, NULL, 40};
    uint32_t returned;
    int agrees;
    const char *wrong;

    fill(payload, 9, FF_AND_55);
    wrong = guarded_call(way, &arguments, &returned);
    if (returned != wire_size(&arguments, arguments.out, &agrees) || !agrees)
        return "another answer";
    return wrong;
}

static void test_above(void)
{
    static const uintptr_t bits[] = {0, 1, (uintptr_t)-1, (uintptr_t)0xA5A5A5A5A5A5A5A5u, (uintptr_t)1 << 15};
    size_t i;

    for (i = 0; i < sizeof bits / sizeof bits[0]; i++) {
        above = bits[i];
        test(wrong_with(call_wide) == NULL, "bits above a number are read", (uint32_t)i);
    }
}

/* An address where nothing is: on most of the boards, who reads there dies. On the others 0 is read. */
#define NOWHERE ((const uint8_t *)(uintptr_t)0xF0000000u)

static void test_payloads(void)
{
    static const uint64_t lengths[] = {UINT64_C(0x100000000), UINT64_C(0x100000005), UINT64_C(0x1000003FB),
                                       UINT64_C(0x8000000000000000), UINT64_C(0xFFFFFFFFFFFFFFFF),
                                       UINT64_C(0xFFFFFFFFFFFFFFFB), UINT64_C(0xFFFFFFFF), UINT64_C(0x80000000)};
    static uint8_t out[64];
    size_t i;

    for (i = 0; i < sizeof lengths / sizeof lengths[0]; i++) {
        const struct arguments arguments = {1, 2, 3, NOWHERE, lengths[i], out, sizeof out};

        test(call_declared(&arguments) == TROGONREED_REFUSED_PAYLOAD, "a payload of 2^32 bytes or more is not PAYLOAD",
             (uint32_t)i);
    }
}

/* Each bit of a length alone, from the first that is PAYLOAD, and with little beside it; with no room, too. */
static void test_bits(void)
{
    static uint8_t out[64];
    uint64_t high; /* it is doubled: a shift would need a function that a Cortex-M0 does not have */
    uint32_t wrong = 0;

    for (high = 1024; high != 0; high += high) {
        struct arguments arguments = {1, 2, 3, NOWHERE, high + 5, out, sizeof out};

        wrong += call_declared(&arguments) != TROGONREED_REFUSED_PAYLOAD;
        arguments.out_len = 0;
        wrong += call_declared(&arguments) != TROGONREED_REFUSED_PAYLOAD;
    }
    test(wrong == 0, "a length with one high bit is not PAYLOAD", wrong);
}

/* With length 0 a pointer may be null, and is not followed. */
static void test_nulls(void)
{
    static uint8_t out[64];
    const struct arguments asks = {1, 2, 3, NULL, 0, NULL, 0}, writes = {1, 2, 3, NOWHERE, 0, out, sizeof out};

    test(call_declared(&asks) == TROGONREED_NO_ROOM + 9, "null pointers of length 0", 0);
    test(call_declared(&writes) == 9, "a payload of length 0 that is nowhere", 0);
}

static uint64_t room;

/* The caller says that there is more room than a processor of 32 bits can have; the frame needs little of it. */
static uint32_t call_ample(const struct arguments *arguments)
{
    struct arguments ample = *arguments;

    ample.out_len = room;
    return call_declared(&ample);
}

static void test_rooms(void)
{
    static const uint64_t rooms[] = {UINT64_C(0x100000000), UINT64_C(0x100000005), UINT64_C(0x8000000000000000),
                                     UINT64_C(0xFFFFFFFFFFFFFFFF)};
    size_t i;

    for (i = 0; i < sizeof rooms / sizeof rooms[0]; i++) {
        room = rooms[i];
        test(wrong_with(call_ample) == NULL, "room of 2^32 bytes or more is not ample", (uint32_t)i);
    }
    for (room = 2048, i = 11; room != 0; room += room, i++)
        test(wrong_with(call_ample) == NULL, "room with one high bit is not ample", (uint32_t)i);
}

void test_widths(void)
{
    test_above();
    test_payloads();
    test_bits();
    test_nulls();
    test_rooms();
}
