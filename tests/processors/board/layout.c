#include "layout.h"

size_t size_of_arguments(size_t count)
{
    const size_t bytes = count > IN_REGISTERS ? (count - IN_REGISTERS) * sizeof(uintptr_t) : 0;

    return (bytes + ALIGNED - 1) & ~(size_t)(ALIGNED - 1);
}

/* One word of 64 bits, or two of 32. */
static size_t put_length(uintptr_t *words, size_t count, uint64_t length)
{
    words[count++] = (uintptr_t)length;
    if (sizeof(uintptr_t) == 4)
        words[count++] = (uintptr_t)(length >> 32);
    return count;
}

size_t words_of(const struct arguments *arguments, uintptr_t words[MAX_WORDS])
{
    size_t count = 0;

    words[count++] = arguments->command;
    words[count++] = arguments->number;
    words[count++] = arguments->flags;
    words[count++] = (uintptr_t)arguments->payload;
    count = put_length(words, count, arguments->payload_len);
    words[count++] = (uintptr_t)arguments->out;
#if defined(__arm__)
    words[count++] = 0;
#endif
    return put_length(words, count, arguments->out_len);
}
