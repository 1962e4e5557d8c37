/* SPDX-License-Identifier: Apache-2.0 */
/*
 * A page by an allocator of addresses as Linux has for DMA (IOVA), written from its description: a red-black tree of the ranges
 * that are taken, in which free room is looked for downwards from the top. The search begins at the range that was taken last,
 * or, where one above it was given back since, behind that one; it begins at the top again where it finds nothing. The
 * kernel's caches for each processor, which stand before the tree, are left out.
 */
#include "sessions.h"

#include <bsd/sys/tree.h>
#include <stdlib.h>

struct range {
    RB_ENTRY(range) entry;
    uint64_t first, last;
};

static int compare(struct range *one, struct range *other)
{
    return one->first < other->first ? -1 : one->first > other->first;
}

RB_HEAD(ranges, range);
RB_PROTOTYPE(ranges, range, entry, compare)
RB_GENERATE(ranges, range, entry, compare)

static struct ranges ranges = RB_INITIALIZER(&ranges);
static struct range top = {.first = SLOTS, .last = SLOTS}; /* stands above all ranges */
static struct range *begin_at;                             /* the range below which the search begins */
static uint64_t words[SLOTS];

static int begin(unsigned agents)
{
    (void)agents;
    begin_at = &top;
    RB_INSERT(ranges, &ranges, &top);
    return 0;
}

/* Finds room for so many pages below a range: the first gap that is large enough. Answers 0 where there is none. */
static int find(struct range *above, uint64_t size, uint64_t *first)
{
    struct range *below;

    for (; above; above = below) {
        uint64_t from;

        below = RB_PREV(ranges, &ranges, above);
        from = below ? below->last + 1 : 0;
        if (above->first - from >= size) {
            *first = above->first - size;
            return 1;
        }
    }
    return 0;
}

static int map(uint32_t id, uint64_t base, uint64_t *address)
{
    struct range *range = malloc(sizeof *range);

    (void)id;
    if (!range) return 1;
    if (!find(begin_at, 1, &range->first) && !find(&top, 1, &range->first)) {
        free(range);
        return 1;
    }
    range->last = range->first;
    RB_INSERT(ranges, &ranges, range);
    begin_at = range;
    words[range->first] = base >> PAGE << 8 | 1;
    *address = range->first << PAGE;
    return 0;
}

static int unmap(uint32_t id, uint64_t address)
{
    struct range wanted = {.first = address >> PAGE}, *range = RB_FIND(ranges, &ranges, &wanted);

    (void)id;
    if (!range) return 1;
    if (range->first >= begin_at->first) begin_at = RB_NEXT(ranges, &ranges, range);
    RB_REMOVE(ranges, &ranges, range);
    words[range->first] = 0;
    free(range);
    return 0;
}

const struct way by_tree = {"tree", begin, map, unmap};
