/* The four functions that GCC calls by itself, and that a program without a library has to bring. */
#include <stddef.h>
#include <stdint.h>

/* else GCC makes a call of memset of the loop in memset */
#pragma GCC optimize("no-tree-loop-distribute-patterns")

void *memcpy(void *restrict to, const void *restrict from, size_t count)
{
    uint8_t *target = to;
    const uint8_t *source = from;
    for (size_t k = 0; k < count; k++)
        target[k] = source[k];
    return to;
}

void *memmove(void *to, const void *from, size_t count)
{
    uint8_t *target = to;
    const uint8_t *source = from;
    if (target < source)
        return memcpy(to, from, count);
    for (size_t k = count; k > 0; k--)
        target[k - 1] = source[k - 1];
    return to;
}

void *memset(void *to, int value, size_t count)
{
    uint8_t *target = to;
    for (size_t k = 0; k < count; k++)
        target[k] = (uint8_t)value;
    return to;
}

int memcmp(const void *one, const void *other, size_t count)
{
    const uint8_t *left = one, *right = other;
    for (size_t k = 0; k < count; k++)
        if (left[k] != right[k])
            return left[k] < right[k] ? -1 : 1;
    return 0;
}
