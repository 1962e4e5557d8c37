/* SPDX-License-Identifier: Apache-2.0 */
/*
 * The functions on memory that compiled code calls. Each is one instruction of WebAssembly, for which the compiler takes the
 * function of the same name where it is told that the processor has it (-mbulk-memory).
 */
#include <stddef.h>

void *memcpy(void *to, const void *from, size_t size)
{
    __builtin_memcpy(to, from, size);
    return to;
}

void *memmove(void *to, const void *from, size_t size)
{
    __builtin_memmove(to, from, size);
    return to;
}

void *memset(void *to, int byte, size_t size)
{
    __builtin_memset(to, byte, size);
    return to;
}

int memcmp(const void *one, const void *other, size_t size)
{
    const unsigned char *a = one;
    const unsigned char *b = other;
    size_t at;

    for (at = 0; at < size; at++)
        if (a[at] != b[at]) return a[at] < b[at] ? -1 : 1;
    return 0;
}
