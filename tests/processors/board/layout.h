/*
 * Where each processor's calling convention puts the arguments of the writer, written down without a compiler. A word
 * has the size of a register; the first ones are in registers, the others on the stack, in this order.
 *
 *   x86-64    six registers; the seventh argument is on the stack, with 8 bytes beside it that keep a multiple of 16
 *   AArch64   eight registers; nothing is on the stack
 *   Arm       four registers; a number of 64 bits begins at a multiple of 8, so a word that is not used follows `out`
 *   RISC-V    eight registers; a number of 64 bits is two words wherever they fall, so the last one is half in a
 *             register and half on the stack, with 12 bytes beside it that keep a multiple of 16
 */
#ifndef LAYOUT_H
#define LAYOUT_H

#include "call.h"
#include "switch.h"

#if defined(__x86_64__)
enum { IN_REGISTERS = 6, ALIGNED = 16, RETURN_ADDRESS = 8 };
#elif defined(__aarch64__)
enum { IN_REGISTERS = 8, ALIGNED = 16, RETURN_ADDRESS = 0 };
#elif defined(__arm__)
enum { IN_REGISTERS = 4, ALIGNED = 8, RETURN_ADDRESS = 0 };
#elif defined(__riscv) && __riscv_xlen == 32
enum { IN_REGISTERS = 8, ALIGNED = 16, RETURN_ADDRESS = 0 };
#else
#error "the calling convention of this processor is not written down"
#endif

/* Sets the words of a call, and returns how many there are. */
size_t words_of(const struct arguments *arguments, uintptr_t words[MAX_WORDS]);

/* The bytes on the stack of a call with so many words, before its return address; what aligns it is among them. */
size_t size_of_arguments(size_t count);

#endif
