/* SPDX-License-Identifier: Apache-2.0 */
/*
 * Measures the stack and the heap of the calls over a description: each call is made on a stack that was painted before, and
 * the heap counts what is taken.
 *
 * usage: footprint AGENT NODE < DESCRIPTION
 *
 * It prints a line for each call: the most bytes of stack, the most bytes of heap that were taken at one time beyond those that
 * were taken before, and how often a block was taken or made larger. Pages of NODE are granted to AGENT until one is refused,
 * and then all are revoked. netconf_run answers the description alone. The last line says how many grants were made, and how
 * many bytes of heap the session had with none and with all of them.
 */
#include <netconf.h>
#include <netconf_heap.h>
#include <stdio.h>
#include <stdlib.h>
#include <string.h>
#include <ucontext.h>

#define LONGEST_TEXT 4194304u
#define STACK        (1u << 18)
#define PAINT        0xa5

/* The heap: malloc, with a count of what is taken. */

static size_t taken, most_taken, blocks;

static struct rattle_block take(void *old, size_t size)
{
    size_t *block = old ? (size_t *)old - 2 : NULL;

    blocks++;
    taken -= block ? block[0] : 0;
    block = realloc(block, size + 2 * sizeof(size_t));
    if (!block) abort();
    block[0] = size;
    taken += size;
    if (taken > most_taken) most_taken = taken;
    return (struct rattle_block){1, block + 2};
}

struct rattle_block rattle_alloc(uint64_t size, uint64_t align)
{
    (void)align;
    return take(NULL, size);
}

struct rattle_block rattle_realloc(void *at, uint64_t kept, uint64_t size, uint64_t align)
{
    (void)kept;
    (void)align;
    return take(at, size);
}

void rattle_dealloc(void *at)
{
    size_t *block = (size_t *)at - 2;

    taken -= block[0];
    free(block);
}

/* The calls, each without parameters, as a context begins a function. */

static struct netconf session;
static uint8_t text[LONGEST_TEXT], line[512], image[1u << 20];
static size_t image_size;
static size_t text_size;
static const char *name;
static uint16_t agent, node, found;
static uint32_t status, id;

static void call_open(void)
{
    size_t written;

    status = netconf_open(&session, text, text_size, line, sizeof line, &written);
}

static void call_node(void) { status = netconf_node(&session, (const uint8_t *)name, strlen(name), &found); }

static void call_grant(void)
{
    uint64_t address;

    status = netconf_grant(&session, id, agent, node, (uint64_t)id << 12, 0x1000, NETCONF_READ_WRITE, &address);
}

static void call_revoke(void) { status = netconf_revoke(&session, id); }

static void call_pending(void)
{
    static struct netconf_event events[16];
    size_t count;

    status = netconf_pending(&session, 0, events, 16, &count);
}

static void call_resolve(void)
{
    struct netconf_place places[4];
    size_t count;

    status = netconf_resolve(&session, agent, 0, NETCONF_FOR_READ, places, 4, &count);
}

static void call_view(void)
{
    struct netconf_row rows[4];
    size_t count;

    status = netconf_view(&session, agent, NETCONF_FOR_READ, 0, rows, 4, &count);
}

static void call_image(void) { status = netconf_image(&session, image, sizeof image, &image_size); }

static void call_lookup(void)
{
    struct netconf_place places[4];
    uint64_t at;
    size_t count;

    status = netconf_lookup(&session, image, image_size, agent, 0, NETCONF_FOR_READ, places, 4, &count, &at);
}

static void call_audit(void)
{
    static uint8_t out[1u << 20];
    uint64_t at;
    size_t size;

    status = netconf_audit(&session, image, image_size, out, sizeof out, &size, &at);
}

static void call_gather(void)
{
    const struct netconf_piece pieces[2] = {{4097, node, 0, 0x5000, 0x1000}, {4098, node, 0, 0x1000, 0x1000}};
    uint64_t address;
    uint32_t piece;

    status = netconf_gather(&session, agent, pieces, 2, NETCONF_READ, &address, &piece);
}

static void call_run(void)
{
    static uint8_t out[1u << 20];
    size_t size;
    uint8_t exit_status;

    status = netconf_run(text, text_size, out, sizeof out, &size, &exit_status);
}

static void call_settle(void) { status = netconf_settle(&session); }

static void call_close(void) { netconf_close(&session); }

enum call {
    OPEN,
    NODE,
    GRANT,
    GATHER,
    REVOKE,
    RESOLVE,
    VIEW,
    IMAGE,
    LOOKUP,
    AUDIT,
    PENDING,
    SETTLE,
    CLOSE,
    RUN,
    CALLS
};

static const struct {
    const char *name;
    void (*make)(void);
} calls[CALLS] = {{"open", call_open},     {"node", call_node},       {"grant", call_grant},
                  {"gather", call_gather}, {"revoke", call_revoke},   {"resolve", call_resolve},
                  {"view", call_view},     {"image", call_image},     {"lookup", call_lookup},
                  {"audit", call_audit},   {"pending", call_pending}, {"settle", call_settle},
                  {"close", call_close},   {"run", call_run}};
static size_t stacks[CALLS], heaps[CALLS], most_blocks[CALLS];

/* Makes a call on a painted stack, and keeps the most that it used. The function that begins it is in the count. */
static void make(enum call call)
{
    static unsigned char stack[STACK];
    static ucontext_t here, there;
    size_t before = taken, at;

    memset(stack, PAINT, sizeof stack);
    most_taken = taken;
    blocks = 0;
    getcontext(&there);
    there.uc_stack.ss_sp = stack;
    there.uc_stack.ss_size = sizeof stack;
    there.uc_link = &here;
    makecontext(&there, calls[call].make, 0);
    swapcontext(&here, &there);
    for (at = 0; at < sizeof stack && stack[at] == PAINT; at++) continue;
    if (sizeof stack - at > stacks[call]) stacks[call] = sizeof stack - at;
    if (most_taken - before > heaps[call]) heaps[call] = most_taken - before;
    if (blocks > most_blocks[call]) most_blocks[call] = blocks;
}

int main(int argc, char **argv)
{
    size_t empty, full;
    uint32_t grants;
    int call;

    if (argc != 3) return 2;
    text_size = fread(text, 1, sizeof text, stdin);
    make(OPEN);
    if (status != NETCONF_DONE) return 1;
    name = argv[1];
    make(NODE);
    agent = found;
    name = argv[2];
    make(NODE);
    node = found;
    make(PENDING);
    make(SETTLE);
    empty = taken;
    for (id = 0; id < 4096; id++) {
        make(GRANT);
        if (status != NETCONF_DONE) break;
        make(PENDING);
        make(SETTLE);
    }
    grants = id;
    make(RESOLVE);
    make(VIEW);
    make(IMAGE);
    make(LOOKUP);
    make(AUDIT);
    if (status != NETCONF_DONE) return 1;
    full = taken;
    for (id = 0; id < grants; id++) {
        make(REVOKE);
        if (status != NETCONF_DONE) return 1;
        make(SETTLE);
    }
    make(GATHER);
    make(CLOSE);
    make(RUN);
    if (status != NETCONF_DONE) return 1;
    for (call = 0; call < CALLS; call++)
        printf("%s: %zu bytes of stack, %zu of heap in %zu blocks\n", calls[call].name, stacks[call], heaps[call],
               most_blocks[call]);
    printf("%u grants: %zu bytes of heap with none, %zu with all\n", (unsigned)grants, empty, full);
    return taken != 0;
}
