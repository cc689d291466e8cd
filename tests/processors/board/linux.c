/* A program of Linux without a C library: its start, and the two system calls that it makes. */
#include <stdint.h>

#include "board.h"

#if defined(__x86_64__)
enum { WRITE = 1, EXIT = 60 };
__asm__(".globl _start\n_start: call board_main\n");
#elif defined(__arm__)
enum { WRITE = 4, EXIT = 1 };
__asm__(".globl _start\n.type _start, %function\n_start: bl board_main\n");
#else
enum { WRITE = 64, EXIT = 93 };
#if defined(__riscv)
__asm__(".globl _start\n_start: call board_main\n");
#else
__asm__(".globl _start\n_start: bl board_main\n");
#endif
#endif

static intptr_t ask(intptr_t number, intptr_t a, intptr_t b, intptr_t c)
{
#if defined(__x86_64__)
    intptr_t answer = number;

    __asm__ volatile("syscall" : "+a"(answer) : "D"(a), "S"(b), "d"(c) : "rcx", "r11", "memory");
    return answer;
#elif defined(__arm__)
    register intptr_t r7 __asm__("r7") = number, r0 __asm__("r0") = a, r1 __asm__("r1") = b, r2 __asm__("r2") = c;

    __asm__ volatile("svc 0" : "+r"(r0) : "r"(r7), "r"(r1), "r"(r2) : "memory");
    return r0;
#elif defined(__riscv)
    register intptr_t a7 __asm__("a7") = number, a0 __asm__("a0") = a, a1 __asm__("a1") = b, a2 __asm__("a2") = c;

    __asm__ volatile("ecall" : "+r"(a0) : "r"(a7), "r"(a1), "r"(a2) : "memory");
    return a0;
#else
    register intptr_t x8 __asm__("x8") = number, x0 __asm__("x0") = a, x1 __asm__("x1") = b, x2 __asm__("x2") = c;

    __asm__ volatile("svc 0" : "+r"(x0) : "r"(x8), "r"(x1), "r"(x2) : "memory");
    return x0;
#endif
}

void board_write(const char *text, size_t n)
{
    while (n > 0) {
        const intptr_t written = ask(WRITE, 1, (intptr_t)text, (intptr_t)n);

        if (written <= 0)
            board_exit(3);
        text += written;
        n -= (size_t)written;
    }
}

void board_exit(int status)
{
    for (;;)
        ask(EXIT, status, 0, 0);
}
