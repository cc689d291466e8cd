#include "print.h"

#include "board.h"

static char buffer[512];
static size_t held;
static uint32_t passed, failed;

static void flush(void)
{
    board_write(buffer, held);
    held = 0;
}

static void put(char one)
{
    buffer[held] = one;
    held++;
    if (held == sizeof buffer)
        flush();
}

void print_text(const char *text)
{
    while (*text != 0)
        put(*text++);
}

/* By subtraction: some of these processors cannot divide. */
void print_number(uint32_t number)
{
    static const uint32_t tens[] = {1000000000, 100000000, 10000000, 1000000, 100000, 10000, 1000, 100, 10, 1};
    size_t i = 0;

    while (tens[i] > number && tens[i] > 1)
        i++;
    for (; i < sizeof tens / sizeof tens[0]; i++) {
        char digit = '0';

        for (; number >= tens[i]; number -= tens[i])
            digit++;
        put(digit);
    }
}

void print_hex(const uint8_t *bytes, size_t n)
{
    static const char digits[] = "0123456789abcdef";
    size_t i;

    if (n == 0)
        put('-');
    for (i = 0; i < n; i++) {
        put(digits[bytes[i] >> 4]);
        put(digits[bytes[i] & 15]);
    }
}

void test(int holds, const char *what, uint32_t where)
{
    if (holds) {
        passed++;
        return;
    }
    failed++;
    print_text("board: ");
    print_text(what);
    print_text(": ");
    print_number(where);
    print_text("\n");
    flush(); /* what comes next may kill the program */
}

void end(void)
{
    print_text("board: ");
    print_number(passed);
    print_text(" passed, ");
    print_number(failed);
    print_text(" failed\n");
    flush();
    board_exit(failed == 0 ? 0 : 1);
}
