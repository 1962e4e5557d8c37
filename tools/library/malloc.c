/* SPDX-License-Identifier: Apache-2.0 */
/* The heap of the library over malloc. A program that has functions of these names of its own is linked without this file. */
#include <netconf_heap.h>
#include <stdlib.h>

static struct rattle_block block_of(void *at)
{
    static unsigned char none;

    return at ? (struct rattle_block){1, at} : (struct rattle_block){0, &none};
}

struct rattle_block rattle_alloc(uint64_t size, uint64_t align)
{
    (void)align;
    return block_of(malloc(size ? size : 1));
}

struct rattle_block rattle_realloc(void *at, uint64_t kept, uint64_t size, uint64_t align)
{
    (void)kept;
    (void)align;
    return block_of(realloc(at, size ? size : 1));
}

void rattle_dealloc(void *at) { free(at); }
