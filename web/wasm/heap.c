/* SPDX-License-Identifier: Apache-2.0 */
/*
 * The heap of the page's module: blocks of powers of two, each kept for its size once it was given back. The memory of the
 * module grows as it is needed. Each block has a header of 16 bytes with the logarithm of its size.
 */
#include "netconf_heap.h"

#define HEADER    16u
#define LEAST     5u
#define SIZES     40u
#define WASM_PAGE 65536u
#define GROWTH    64u /* the least number of WebAssembly pages by which the memory grows */

extern unsigned char __heap_base;

static uint64_t used; /* the address at which the next new block begins, or 0 before the first */
static uint64_t end;
static void *given_back[SIZES];

/* The logarithm of the least block that has room for so many bytes, or SIZES where there is none. */
static unsigned logarithm_for(uint64_t size)
{
    unsigned logarithm = LEAST;

    while (logarithm < SIZES && ((uint64_t)1 << logarithm) - HEADER < size) logarithm++;
    return logarithm;
}

static uint64_t *header_of(void *at) { return (uint64_t *)((unsigned char *)at - HEADER); }

static struct rattle_block none(void) { return (struct rattle_block){0, &__heap_base}; }

/* Whether there is memory for a new block of so many bytes, which the memory grows for. */
static int has_room(uint64_t size)
{
    uint64_t pages;

    if (used == 0) {
        used = ((uint64_t)&__heap_base + HEADER - 1) / HEADER * HEADER;
        end = (uint64_t)__builtin_wasm_memory_size(0) * WASM_PAGE;
    }
    if (size <= end - used) return 1;
    pages = (size - (end - used) + WASM_PAGE - 1) / WASM_PAGE;
    if (pages < GROWTH) pages = GROWTH;
    if (__builtin_wasm_memory_grow(0, pages) == (uint64_t)-1) return 0;
    end += pages * WASM_PAGE;
    return 1;
}

struct rattle_block rattle_alloc(uint64_t size, uint64_t align)
{
    unsigned logarithm = logarithm_for(size);
    unsigned char *block;

    (void)align;
    if (logarithm == SIZES) return none();
    if (given_back[logarithm]) {
        block = given_back[logarithm];
        given_back[logarithm] = *(void **)(block + HEADER);
    } else {
        if (!has_room((uint64_t)1 << logarithm)) return none();
        block = (unsigned char *)used;
        used += (uint64_t)1 << logarithm;
    }
    *(uint64_t *)block = logarithm;
    return (struct rattle_block){1, block + HEADER};
}

void rattle_dealloc(void *at)
{
    uint64_t *header = header_of(at);
    uint64_t logarithm = *header;

    *(void **)at = given_back[logarithm];
    given_back[logarithm] = header;
}

struct rattle_block rattle_realloc(void *at, uint64_t kept, uint64_t size, uint64_t align)
{
    struct rattle_block moved;

    if (size <= ((uint64_t)1 << *header_of(at)) - HEADER) return (struct rattle_block){1, at};
    moved = rattle_alloc(size, align);
    if (!moved.done) return moved;
    __builtin_memcpy(moved.at, at, kept);
    rattle_dealloc(at);
    return moved;
}
