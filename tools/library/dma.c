/* SPDX-License-Identifier: Apache-2.0 */
/*
 * A DMA allocator over the library, as a kernel has one: dma_map gives a device the pages of a buffer and returns the
 * address at which the device sees them, dma_unmap takes them back. The translation unit is an array of this file, which
 * holds the words that events set.
 *
 * The program maps and unmaps at random, under a limit of memory, and looks after each call at what the device sees. It ends
 * with 1 where that is not what was mapped.
 *
 * usage: dma [CALLS [SEED]]
 */
#include <netconf_heap.h>
#include <netconf.h>
#include <stdio.h>
#include <stdlib.h>
#include <time.h>

#define PAGE        12
#define SLOTS       1024u
#define MOST_MAPPED 512u
#ifndef MOST_MEMORY
#define MOST_MEMORY (16u << 20)
#endif

static const char description[] = "dram is accept [0x0-0xffffffff];"
                                  "unit iommu kind pages page 12 slots 1024 reach 40 to dram;"
                                  "agent card is map [0x0-0x3fffff to iommu at 0x0];";

/* The heap: malloc, with a limit on all that is taken. */

static size_t taken, most_taken;

static struct rattle_block take(void *old, size_t size)
{
    size_t *block = old ? (size_t *)old - 2 : NULL;
    size_t before = block ? block[0] : 0;
    struct rattle_block none = {0, &taken};

    if (taken - before + size > MOST_MEMORY) return none;
    block = realloc(block, size + 2 * sizeof(size_t));
    if (!block) return none;
    block[0] = size;
    taken += size - before;
    if (taken > most_taken) most_taken = taken;
    return (struct rattle_block){1, block + 2};
}

struct rattle_block rattle_alloc(uint64_t size, uint64_t align)
{
    (void)align;
    return take(NULL, size);
}

struct rattle_block rattle_realloc(void *at, uint64_t kept, uint64_t size, uint64_t align)
{
    (void)kept;
    (void)align;
    return take(at, size);
}

void rattle_dealloc(void *at)
{
    size_t *block = (size_t *)at - 2;

    taken -= block[0];
    free(block);
}

/* The hardware: the words of the unit, which events set. */

static uint64_t words[SLOTS];

static void perform(struct netconf *session)
{
    struct netconf_event events[32];
    size_t from = 0, count, at;

    do {
        netconf_pending(session, from, events, 32, &count);
        for (at = 0; at < count; at++)
            if (events[at].kind == NETCONF_WRITE_WORD) words[events[at].word] = events[at].value;
        /* A fence would wait here until the device has no translation in flight. */
        from += count;
    } while (count == 32);
    netconf_settle(session);
}

/* The allocator. */

struct dma {
    struct netconf session;
    uint16_t device, memory;
    uint32_t next;
};

struct dma_buffer {
    uint32_t id;
    uint64_t physical, size, address;
    uint8_t rights;
};

static uint32_t dma_open(struct dma *dma)
{
    uint8_t line[64];
    size_t written;
    uint32_t status;

    status =
        netconf_open(&dma->session, (const uint8_t *)description, sizeof description - 1, line, sizeof line, &written);
    if (status) return status;
    perform(&dma->session);
    status = netconf_node(&dma->session, (const uint8_t *)"card", 4, &dma->device);
    return status ? status : netconf_node(&dma->session, (const uint8_t *)"dram", 4, &dma->memory);
}

static uint32_t dma_map(struct dma *dma, struct dma_buffer *buffer)
{
    uint32_t status;

    buffer->id = dma->next++;
    status = netconf_grant(&dma->session, buffer->id, dma->device, dma->memory, buffer->physical, buffer->size,
                           buffer->rights, &buffer->address);
    if (status == NETCONF_DONE) perform(&dma->session);
    return status;
}

static uint32_t dma_unmap(struct dma *dma, const struct dma_buffer *buffer)
{
    uint32_t status = netconf_revoke(&dma->session, buffer->id);

    if (status == NETCONF_DONE) perform(&dma->session);
    return status;
}

/* What the device sees. */

/* The word of a page that the device may read, write or both; docs/image.md has its bits. */
static uint64_t word_of(uint64_t physical, uint8_t rights)
{
    uint64_t closed = (rights & NETCONF_READ ? 0 : 0x10) | (rights & NETCONF_WRITE ? 0 : 0x20);

    return physical >> PAGE << 8 | closed | 1;
}

static unsigned pages_seen(void)
{
    unsigned slot, count = 0;

    for (slot = 0; slot < SLOTS; slot++) count += words[slot] != 0;
    return count;
}

static int is_seen(const struct dma_buffer *buffer)
{
    uint64_t at;

    for (at = 0; at < buffer->size; at += 1u << PAGE)
        if (words[(buffer->address + at) >> PAGE] != word_of(buffer->physical + at, buffer->rights)) return 0;
    return 1;
}

static int fail(const char *what, unsigned long call)
{
    printf("call %lu: %s\n", call, what);
    return 1;
}

int main(int argc, char **argv)
{
    static struct dma_buffer mapped[MOST_MAPPED];
    unsigned long calls = argc > 1 ? strtoul(argv[1], NULL, 0) : 20000, call, done = 0;
    unsigned count = 0, pages = 0, at;
    struct dma dma = {{0}, 0, 0, 1};
    uint32_t status;
    clock_t began;

    srand(argc > 2 ? (unsigned)strtoul(argv[2], NULL, 0) : 1);
    if (dma_open(&dma) != NETCONF_DONE) return fail("the description is not opened", 0);
    began = clock();
    for (call = 0; call < calls; call++) {
        /* It fills for a while, and then empties. */
        if (count < MOST_MAPPED && (count == 0 || rand() % 100 < (call >> 12 & 1 ? 40 : 60))) {
            struct dma_buffer *buffer = &mapped[count];

            buffer->physical = (uint64_t)(rand() % 0x80000) << PAGE;
            buffer->size = (uint64_t)(1 + rand() % 4) << PAGE;
            buffer->rights = (uint8_t)(1 + rand() % 3);
            status = dma_map(&dma, buffer);
            if (status == NETCONF_DONE) {
                if (!is_seen(buffer)) return fail("the device does not see what was mapped", call);
                pages += (unsigned)(buffer->size >> PAGE);
                count++;
                done++;
            } else if (status != NETCONF_NO_PLACEMENT && status != NETCONF_NO_MEMORY) {
                return fail(netconf_status_text(status), call);
            }
        } else {
            at = (unsigned)rand() % count;
            status = dma_unmap(&dma, &mapped[at]);
            if (status == NETCONF_DONE) {
                pages -= (unsigned)(mapped[at].size >> PAGE);
                mapped[at] = mapped[--count];
                done++;
            } else if (status != NETCONF_NO_MEMORY) {
                return fail(netconf_status_text(status), call);
            }
        }
        if (pages_seen() != pages) return fail("the device sees more or less than is mapped", call);
    }
    for (at = 0; at < count; at++)
        if (!is_seen(&mapped[at])) return fail("the device does not see what is mapped", call);
    printf("%lu of %lu calls were done, at %.1f us each; %u buffers are mapped; at most %zu KiB were taken\n", done,
           calls, (double)(clock() - began) / CLOCKS_PER_SEC * 1e6 / (double)(calls ? calls : 1), count,
           most_taken >> 10);
    netconf_close(&dma.session);
    return taken ? fail("memory is not given back", call) : 0;
}
