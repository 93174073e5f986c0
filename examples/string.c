/* What gcc may call of the C library, also where a program does not: it copies and clears structures so. Written here byte by byte. */
#include "string.h"

void *memcpy(void *to, const void *from, size_t bytes)
{
    unsigned char *put = to;
    const unsigned char *take = from;
    while (bytes--)
        *put++ = *take++;
    return to;
}

void *memmove(void *to, const void *from, size_t bytes)
{
    unsigned char *put = to;
    const unsigned char *take = from;
    if (put <= take)
        return memcpy(to, from, bytes);
    while (bytes--)
        put[bytes] = take[bytes];
    return to;
}

void *memset(void *to, int byte, size_t bytes)
{
    unsigned char *put = to;
    while (bytes--)
        *put++ = byte;
    return to;
}

int memcmp(const void *one, const void *other, size_t bytes)
{
    const unsigned char *a = one, *b = other;
    for (; bytes; a++, b++, bytes--)
        if (*a != *b)
            return *a < *b ? -1 : 1;
    return 0;
}
