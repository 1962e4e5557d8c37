/* SPDX-License-Identifier: Apache-2.0 */
/*
 * The three functions of the heap that the library calls, as it reads their results: two words, of which the first is 1
 * where there was memory.
 */
#ifndef NETCONF_HEAP_H
#define NETCONF_HEAP_H

#include <stdint.h>

#ifdef __cplusplus
extern "C" {
#endif

/* What an allocation gives: whether there was memory, and where. */
struct rattle_block {
    uint64_t done;
    void *at;
};

/* A block of @size bytes, aligned to @align, a power of two up to 16. */
struct rattle_block rattle_alloc(uint64_t size, uint64_t align);

/* The block @at with @size bytes, of which the first @kept are as they were. Where there is no memory, @at stays as it was. */
struct rattle_block rattle_realloc(void *at, uint64_t kept, uint64_t size, uint64_t align);

/* Gives a block back. */
void rattle_dealloc(void *at);

#ifdef __cplusplus
}
#endif

#endif
