/* Two functions of the C library that compilers call for copies and zeros of their own. The writer needs neither. */
#include <stddef.h>

void *memcpy(void *to, const void *from, size_t n);
void *memset(void *to, int value, size_t n);

void *memcpy(void *to, const void *from, size_t n)
{
    char *one = to;
    const char *other = from;

    while (n-- > 0)
        *one++ = *other++;
    return to;
}

void *memset(void *to, int value, size_t n)
{
    char *one = to;

    while (n-- > 0)
        *one++ = (char)value;
    return to;
}
