/* SPDX-License-Identifier: Apache-2.0 */
/*
 * A heap over an array: blocks of powers of two, each kept for its size once it was given back. It needs no C library, and
 * its memory never grows. Each block has a header of 16 bytes with the logarithm of its size.
 */
#include <netconf_heap.h>

#ifndef HEAP_SIZE
#define HEAP_SIZE (64u << 20)
#endif

#define HEADER 16u
#define LEAST  5u
#define SIZES  40u

static unsigned char memory[HEAP_SIZE] __attribute__((aligned(16)));
static uint64_t used;
static void *given_back[SIZES];

/* The logarithm of the least block that has room for so many bytes, or SIZES where there is none. */
static unsigned logarithm_for(uint64_t size)
{
    unsigned logarithm = LEAST;

    while (logarithm < SIZES && ((uint64_t)1 << logarithm) - HEADER < size) logarithm++;
    return logarithm;
}

static uint64_t *header_of(void *at) { return (uint64_t *)((unsigned char *)at - HEADER); }

static struct rattle_block none(void) { return (struct rattle_block){0, memory}; }

struct rattle_block rattle_alloc(uint64_t size, uint64_t align)
{
    unsigned logarithm = logarithm_for(size);
    unsigned char *block;

    (void)align;
    if (logarithm == SIZES) return none();
    if (given_back[logarithm]) {
        block = given_back[logarithm];
        given_back[logarithm] = *(void **)(block + HEADER);
    } else {
        if ((uint64_t)1 << logarithm > HEAP_SIZE - used) return none();
        block = memory + used;
        used += (uint64_t)1 << logarithm;
    }
    *(uint64_t *)block = logarithm;
    return (struct rattle_block){1, block + HEADER};
}

void rattle_dealloc(void *at)
{
    uint64_t *header = header_of(at);
    uint64_t logarithm = *header;

    *(void **)at = given_back[logarithm];
    given_back[logarithm] = header;
}

struct rattle_block rattle_realloc(void *at, uint64_t kept, uint64_t size, uint64_t align)
{
    struct rattle_block moved;
    uint64_t byte;

    if (size <= ((uint64_t)1 << *header_of(at)) - HEADER) return (struct rattle_block){1, at};
    moved = rattle_alloc(size, align);
    if (!moved.done) return moved;
    for (byte = 0; byte < kept; byte++) ((unsigned char *)moved.at)[byte] = ((unsigned char *)at)[byte];
    rattle_dealloc(at);
    return moved;
}
