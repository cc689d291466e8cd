/*
 * Trogonreed: writes frames of the Gizwits serial protocol, for the firmware of a box. C99 or later, and C++; for
 * processors of 32 and of 64 bits. It needs two headers that every compiler has, and no C library.
 *
 * The function is proved to meet its contract (crate `firmware`): what it returns and what it writes, for every input.
 * That this declaration and these numbers agree with it, and how C passes a slice of bytes, is trusted and tested. The
 * function keeps nothing between calls and allocates nothing, so several threads may call it at once.
 *
 * `bin/firmware TRIPLE` builds the archive, libfirmware.a, for the processor that TRIPLE names, and puts this header
 * beside it; docs/PROCESSORS.md has the triples, with the size and the stack of each. examples/box.c is a program that
 * links it, and examples/cortex-m3 a whole firmware. docs/API.md has the reference, and docs/PROTOCOL.md the rules
 * (section 6).
 */
#ifndef TROGONREED_H
#define TROGONREED_H

#include <stddef.h>
#include <stdint.h>

#ifdef __cplusplus
extern "C" {
#endif

/*
 * This header does not compile where the archive would not understand its caller: lengths have 64 bits on every
 * processor, as the writer was proved with, and size_t has 32 or 64, as an address has. Numbers have their low byte
 * first.
 */
typedef char trogonreed_checks_lengths[sizeof(uint64_t) == 8 && (sizeof(size_t) == 4 || sizeof(size_t) == 8) ? 1 : -1];
typedef char trogonreed_checks_addresses[sizeof(void *) == sizeof(size_t) ? 1 : -1];
#if defined(__BYTE_ORDER__) && defined(__ORDER_LITTLE_ENDIAN__) && __BYTE_ORDER__ != __ORDER_LITTLE_ENDIAN__
#error "there is no archive of the writer for a processor with the high byte first"
#endif

/* The greatest size of a payload, in bytes. */
#define TROGONREED_MAX_PAYLOAD 1019ul

/*
 * A buffer of this size holds every frame on the wire: 2 bytes, and twice the 1,026 of the longest body. For a payload
 * of n bytes, 2 + 2 * (n + 7) are enough.
 */
#define TROGONREED_MAX_FRAME 2054ul

/*
 * A call uses less than this many bytes of stack, its return address and the arguments on the stack included; payload
 * and buffer are the caller's own. Tested for payloads of every size, not proved; 93 bytes were measured on x86-64
 * Linux. docs/PROCESSORS.md has the figures of the other processors, and docs/STACK.md how they are measured.
 */
#define TROGONREED_STACK 1024ul

/*
 * What a returned number means:
 *   - below TROGONREED_REFUSED it is the count of bytes written, at most TROGONREED_MAX_FRAME;
 *   - TROGONREED_REFUSED_PAYLOAD, which is TROGONREED_REFUSED plus TROGONREED_PAYLOAD, is PAYLOAD: the payload has more
 *     than TROGONREED_MAX_PAYLOAD bytes;
 *   - from TROGONREED_NO_ROOM on it is ROOM: the buffer is smaller than the frame on the wire. It is TROGONREED_NO_ROOM
 *     plus the size of that frame, at most TROGONREED_MAX_FRAME; trogonreed_needed gives the size.
 * No other number is returned. PAYLOAD and ROOM are refusals: nothing is written, and the buffer stays as it was.
 */
#define TROGONREED_REFUSED 65536ul
#define TROGONREED_PAYLOAD 21ul
#define TROGONREED_REFUSED_PAYLOAD 65557ul
#define TROGONREED_NO_ROOM 131072ul

/*
 * For callers of version 0.12 and before, where ROOM was 65558:
 *   - TROGONREED_REFUSED_ROOM and TROGONREED_ROOM are gone, and a program that names them does not compile. Test
 *     `trogonreed_needed(n) != 0`, or `n >= TROGONREED_NO_ROOM`, instead.
 *   - A test for 65558 never holds now, for ROOM `n - 65536` is not the number of the refusal, and its bit 65536 is not
 *     set. Test trogonreed_is_refused(n) before n is used as a count: who takes ROOM for one reads beyond the buffer.
 *   - Compile every file again that includes this header: an object made with the old one knows ROOM by its old number.
 *     TROGONREED_NO_ROOM is defined in this header and not in older ones.
 * A count, PAYLOAD and trogonreed_is_refused are as before.
 */

/*
 * Writes one frame at the front of the caller's buffer `out`: FF FF, then length, command, sequence number, flags,
 * payload and sum, with a 55 stuffed after each FF of these. It writes every command, every number and all flags. The
 * rest of `out` stays as it was.
 *
 * A box gives each command of its own the next number: 0 first, then up to 255, then 0 again. Where no reply comes
 * within 200 ms it sends the command again under the same number, at most twice, and then gives up. A reply has the
 * number of the frame that it replies to (docs/PROTOCOL.md, 8.1 and section 9). This function keeps no count: the
 * caller does.
 *
 * Returns the count of bytes written, or a refusal: PAYLOAD is tested first, then ROOM. To ask how large the frame is,
 * pass `NULL, 0` as the buffer: that is PAYLOAD or ROOM. With the same command, number, flags and payload bytes, a
 * buffer of the size that ROOM has, or a larger one, gets the frame, and that size is returned; a smaller one is ROOM
 * with the same number.
 *
 * This is the caller's duty, and nothing here can test it:
 *   - `payload` is readable for `payload_len` bytes, and `out` is writable for `out_len` bytes;
 *   - they do not overlap, and during the call no other thread writes to either or reads `out`.
 * With length 0 a pointer may be null. `payload` is never written.
 *
 * A length is a uint64_t, also where size_t has 32 bits; a size_t is converted by the call itself. Where size_t has 64
 * bits it is passed in the same way.
 */
uint32_t trogonreed_write_frame(uint8_t command, uint8_t number, uint16_t flags, const uint8_t *payload,
                                uint64_t payload_len, uint8_t *out, uint64_t out_len);

/* Whether a returned number is a refusal. */
static inline int trogonreed_is_refused(uint32_t returned)
{
    return returned >= TROGONREED_REFUSED;
}

/*
 * The size of the frame on the wire, where a returned number is ROOM; otherwise 0, and no frame has 0 bytes.
 *
 * Example: a report after those that wait for the serial line, or not at all. The first call asks, with no buffer; the
 * second one writes. It returns 0 where the payload is too long, or where there is no room now. Between the two calls
 * nobody may write to the payload.
 *
 *     static uint8_t waiting[256];
 *     static size_t used;
 *
 *     int queue_report(uint8_t number, const uint8_t *payload, size_t payload_len)
 *     {
 *         const uint32_t asked = trogonreed_write_frame(0x05, number, 0, payload, payload_len, NULL, 0);
 *         const size_t needed = trogonreed_needed(asked);
 *         uint32_t count;
 *
 *         if (needed == 0 || needed > sizeof waiting - used)
 *             return 0;
 *         count = trogonreed_write_frame(0x05, number, 0, payload, payload_len, waiting + used, needed);
 *         if (trogonreed_is_refused(count))
 *             return 0;
 *         used += count;
 *         return 1;
 *     }
 */
static inline size_t trogonreed_needed(uint32_t returned)
{
    return (size_t)(returned < TROGONREED_NO_ROOM ? 0 : returned - TROGONREED_NO_ROOM);
}

#ifdef __cplusplus
}
#endif

#endif
