#ifndef PRINT_H
#define PRINT_H

#include "r4k_devices.h"

static inline void print(const char *text)
{
    while (*text)
        R4K_OUT = *text++;
}

static inline void print_number(unsigned number)
{
    char digits[10];
    int count = 0;
    do
        digits[count++] = '0' + number % 10;
    while (number /= 10);
    while (count)
        R4K_OUT = digits[--count];
}

#endif
