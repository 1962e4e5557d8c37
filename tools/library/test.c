/* SPDX-License-Identifier: Apache-2.0 */
/*
 * Tests of the library from C: every call, every status, a closed session, places that are too small, and each allocation
 * failing in turn, after which the call has changed nothing and is done when it is made again.
 *
 * All tests are run. It prints a line for each, and ends with 1 where one failed.
 */
#include <netconf_heap.h>
#include <netconf.h>
#include <stdio.h>
#include <stdlib.h>
#include <string.h>

static const char *const description = "dram is accept [0x0-0x3fffffff];\n"
                                       "bus is map [0x80000000-0xbfffffff to dram at 0x0];\n"
                                       "agent core0 is over bus;\n"
                                       "bridge is map [0x40000000-0x7fffffff to bus at 0x80000000];\n"
                                       "unit iommu kind pages page 12 slots 4 reach 32 to bridge;\n"
                                       "agent card is map [0x0-0x3fff to iommu at 0x0];\n";

static unsigned failures;

#define CHECK(condition) check((condition), #condition, __LINE__)

static void check(int holds, const char *condition, int line)
{
    if (!holds) {
        printf("line %d: not so: %s\n", line, condition);
        failures++;
    }
}

/* The heap of the tests: malloc, with one allocation that fails. */

/* How many allocations are made before the one that fails; negative where none fails. */
static long allocations_left = -1;
static unsigned long allocations;
static long live_blocks;

static int may_allocate(void)
{
    allocations++;
    if (allocations_left < 0) return 1;
    return allocations_left-- != 0;
}

struct rattle_block rattle_alloc(uint64_t size, uint64_t align)
{
    struct rattle_block block = {0, &failures};
    void *at;

    (void)align;
    if (!may_allocate()) return block;
    at = malloc(size ? size : 1);
    if (!at) return block;
    live_blocks++;
    block.done = 1;
    block.at = at;
    return block;
}

struct rattle_block rattle_realloc(void *at, uint64_t kept, uint64_t size, uint64_t align)
{
    struct rattle_block block = {0, &failures};
    void *moved;

    (void)kept;
    (void)align;
    if (!may_allocate()) return block;
    moved = realloc(at, size ? size : 1);
    if (!moved) return block;
    block.done = 1;
    block.at = moved;
    return block;
}

void rattle_dealloc(void *at)
{
    live_blocks--;
    free(at);
}

/* What the hardware would be: the words of each unit, set by events. */

#define UNITS 1024
#define WORDS 64

struct hardware {
    uint64_t words[UNITS][WORDS];
    unsigned made;
};

static struct hardware hardware;

static void perform(struct netconf *session)
{
    struct netconf_event events[7];
    size_t from = 0, count, at;

    do {
        CHECK(netconf_pending(session, from, events, 7, &count) == NETCONF_DONE);
        for (at = 0; at < count; at++) {
            const struct netconf_event *event = &events[at];

            CHECK(event->unused == 0);
            if (event->kind == NETCONF_MAKE) {
                memset(hardware.words[event->unit], 0, sizeof hardware.words[0]);
                hardware.made++;
            } else if (event->kind == NETCONF_WRITE_WORD) {
                hardware.words[event->unit][event->word % WORDS] = event->value;
            } else {
                CHECK(event->kind == NETCONF_FENCE);
            }
        }
        from += count;
    } while (count == 7);
    CHECK(netconf_settle(session) == NETCONF_DONE);
}

static uint32_t open_text(struct netconf *session, const char *text, uint8_t *line, size_t room, size_t *written)
{
    return netconf_open(session, (const uint8_t *)text, strlen(text), line, room, written);
}

static uint16_t node(struct netconf *session, const char *name)
{
    uint16_t number = 0xffff;

    CHECK(netconf_node(session, (const uint8_t *)name, strlen(name), &number) == NETCONF_DONE);
    return number;
}

static void test_closed(void)
{
    struct netconf session = {0};
    struct netconf_event events[1];
    uint64_t address = 7;
    uint16_t number = 7;
    uint8_t out[4];
    size_t count = 7;

    CHECK(netconf_grant(&session, 1, 0, 0, 0, 1, NETCONF_READ, &address) == NETCONF_CLOSED);
    CHECK(netconf_grant_at(&session, 1, 0, 0, 0, 1, NETCONF_READ, 0, &address) == NETCONF_CLOSED);
    CHECK(address == 7);
    CHECK(netconf_route(&session, 1, 0, 0, 0, &address) == NETCONF_CLOSED);
    CHECK(address == 7);
    CHECK(netconf_revoke(&session, 1) == NETCONF_CLOSED);
    CHECK(netconf_resolve(&session, 0, 0, NETCONF_FOR_READ, NULL, 0, &count) == NETCONF_CLOSED);
    CHECK(netconf_view(&session, 0, NETCONF_FOR_READ, 0, NULL, 0, &count) == NETCONF_CLOSED);
    CHECK(netconf_image(&session, out, sizeof out, &count) == NETCONF_CLOSED);
    CHECK(count == 7);
    CHECK(netconf_pending(&session, 0, events, 1, &count) == NETCONF_CLOSED);
    CHECK(count == 0);
    CHECK(netconf_settle(&session) == NETCONF_CLOSED);
    CHECK(netconf_node(&session, (const uint8_t *)"a", 1, &number) == NETCONF_CLOSED);
    CHECK(netconf_name(&session, 0, out, sizeof out, &count) == NETCONF_CLOSED);
    CHECK(number == 7);
    netconf_close(&session);
    netconf_close(&session);
    CHECK(session.held == NULL);
}

static void test_open(void)
{
    struct netconf session = {0};
    struct netconf_event events[2];
    uint8_t line[64];
    size_t written = 7, count;
    void *held;

    CHECK(open_text(&session, "a is", line, sizeof line, &written) == NETCONF_REFUSED);
    CHECK(written == strlen("refused: line 1 Statement") && !memcmp(line, "refused: line 1 Statement", written));
    CHECK(session.held == NULL);
    CHECK(open_text(&session, "a is", line, 0, &written) == NETCONF_TOO_SMALL);
    CHECK(written == strlen("refused: line 1 Statement"));
    CHECK(open_text(&session, "a is", line, written - 1, &written) == NETCONF_TOO_SMALL);
    CHECK(open_text(&session, description, line, 0, &written) == NETCONF_DONE);
    CHECK(written == 0);
    CHECK(netconf_pending(&session, 0, events, 2, &count) == NETCONF_DONE);
    CHECK(count == 1 && events[0].kind == NETCONF_MAKE && events[0].unit == node(&session, "iommu"));
    CHECK(events[0].word == 4 && events[0].value == 0);
    held = session.held;
    CHECK(open_text(&session, "a is", line, sizeof line, &written) == NETCONF_REFUSED);
    CHECK(session.held != NULL && node(&session, "dram") == 0);
    (void)held;
    CHECK(open_text(&session, "unit is accept [0-1]", line, sizeof line, &written) == NETCONF_REFUSED);
    CHECK(open_text(&session, "b is accept [0x0-0xff];", line, sizeof line, &written) == NETCONF_DONE);
    CHECK(node(&session, "b") == 0);
    netconf_close(&session);
    CHECK(session.held == NULL);
}

static void test_names(void)
{
    struct netconf session = {0};
    uint8_t out[8];
    size_t written;
    uint16_t number = 9;

    CHECK(open_text(&session, description, out, 0, &written) == NETCONF_DONE);
    CHECK(node(&session, "dram") == 0 && node(&session, "bus") == 1 && node(&session, "card") == 5);
    CHECK(netconf_node(&session, (const uint8_t *)"dra", 3, &number) == NETCONF_NO_NODE);
    CHECK(netconf_node(&session, (const uint8_t *)"\xff", 1, &number) == NETCONF_BAD_ARGUMENT);
    CHECK(netconf_node(&session, NULL, 0, &number) == NETCONF_NO_NODE);
    CHECK(number == 9);
    CHECK(netconf_name(&session, 4, out, sizeof out, &written) == NETCONF_DONE);
    CHECK(written == 5 && !memcmp(out, "iommu", 5));
    CHECK(netconf_name(&session, 4, out, 5, &written) == NETCONF_DONE);
    CHECK(netconf_name(&session, 4, out, 4, &written) == NETCONF_TOO_SMALL && written == 5);
    CHECK(netconf_name(&session, 6, out, sizeof out, &written) == NETCONF_NO_NODE);
    netconf_close(&session);
}

static void test_grants(void)
{
    struct netconf session = {0};
    uint8_t line[1];
    size_t written;
    uint64_t address = 0;
    uint16_t card, dram, core, unit;

    CHECK(open_text(&session, description, line, 0, &written) == NETCONF_DONE);
    card = node(&session, "card");
    dram = node(&session, "dram");
    core = node(&session, "core0");
    unit = node(&session, "iommu");
    perform(&session);
    CHECK(netconf_grant(&session, 1, card, dram, 0x9000, 0x2000, NETCONF_READ_WRITE, &address) == NETCONF_DONE);
    CHECK(address == 0);
    CHECK(netconf_grant(&session, 1, card, dram, 0x9000, 0x2000, NETCONF_READ_WRITE, &address) == NETCONF_ID_USED);
    CHECK(netconf_grant(&session, 2, dram, dram, 0x9000, 0x2000, NETCONF_READ, &address) == NETCONF_NO_AGENT);
    CHECK(netconf_grant(&session, 2, 999, dram, 0x9000, 0x2000, NETCONF_READ, &address) == NETCONF_NO_AGENT);
    CHECK(netconf_grant(&session, 2, card, 999, 0x9000, 0x2000, NETCONF_READ, &address) == NETCONF_NO_TARGET);
    CHECK(netconf_grant(&session, 2, card, dram, 0x3ffff000, 0x2000, NETCONF_READ, &address) == NETCONF_NOT_ACCEPTED);
    CHECK(address == 0x40000000);
    CHECK(netconf_grant(&session, 2, card, dram, 0x4000, 0, NETCONF_READ, &address) == NETCONF_NOT_ACCEPTED);
    CHECK(netconf_grant(&session, 2, card, dram, 0x4100, 0x100, NETCONF_READ, &address) == NETCONF_NO_PLACEMENT);
    CHECK(netconf_grant(&session, 2, card, dram, 0x4000, 0x1000, 0, &address) == NETCONF_BAD_ARGUMENT);
    CHECK(netconf_grant(&session, 2, card, dram, 0x4000, 0x1000, 4, &address) == NETCONF_BAD_ARGUMENT);
    CHECK(netconf_grant_at(&session, 2, card, dram, 0x4000, 0x1000, NETCONF_READ, 0x1000, &address)
          == NETCONF_NO_PLACEMENT);
    CHECK(netconf_grant_at(&session, 2, card, dram, 0x4000, 0x1000, NETCONF_READ, 0x3000, &address) == NETCONF_DONE);
    CHECK(address == 0x3000);
    CHECK(netconf_grant(&session, 3, core, dram, 0x4000, 0x1000, NETCONF_READ, &address) == NETCONF_NO_PLACEMENT);
    perform(&session);
    /* The words that the program dumps for these two grants, in examples/first_grant.out. */
    CHECK(hardware.words[unit][0] == 0x04000901 && hardware.words[unit][1] == 0x04000a01);
    CHECK(hardware.words[unit][2] == 0 && hardware.words[unit][3] != 0);
    CHECK(netconf_revoke(&session, 7) == NETCONF_NO_GRANT);
    CHECK(netconf_revoke(&session, 1) == NETCONF_DONE);
    CHECK(netconf_revoke(&session, 1) == NETCONF_NO_GRANT);
    perform(&session);
    CHECK(hardware.words[unit][0] == 0 && hardware.words[unit][1] == 0 && hardware.words[unit][3] != 0);
    netconf_close(&session);
}

/* The events of a grant after a revoke begin with a fence, and each call tells those after those that were pending. */
static void test_events(void)
{
    struct netconf session = {0};
    struct netconf_event events[16];
    uint8_t line[1];
    size_t written, count, more;
    uint64_t address;
    uint16_t card, dram;

    CHECK(open_text(&session, description, line, 0, &written) == NETCONF_DONE);
    card = node(&session, "card");
    dram = node(&session, "dram");
    perform(&session);
    CHECK(netconf_grant(&session, 1, card, dram, 0x9000, 0x1000, NETCONF_READ, &address) == NETCONF_DONE);
    CHECK(netconf_pending(&session, 0, events, 16, &count) == NETCONF_DONE);
    CHECK(count > 0 && events[0].kind == NETCONF_WRITE_WORD);
    CHECK(netconf_revoke(&session, 1) == NETCONF_DONE);
    CHECK(netconf_grant(&session, 1, card, dram, 0xa000, 0x1000, NETCONF_READ, &address) == NETCONF_DONE);
    CHECK(netconf_pending(&session, count, events, 16, &more) == NETCONF_DONE);
    CHECK(more > 2 && events[0].value == 0 && events[more - 2].kind == NETCONF_FENCE);
    CHECK(netconf_pending(&session, 0, NULL, 0, &count) == NETCONF_DONE && count == 0);
    CHECK(netconf_pending(&session, SIZE_MAX, events, 16, &count) == NETCONF_DONE && count == 0);
    netconf_close(&session);
}

/* What agents see, before and after grants. */
static void test_seeing(void)
{
    struct netconf session = {0};
    struct netconf_place places[2];
    struct netconf_row rows[4];
    uint8_t line[1];
    size_t written, count = 7;
    uint64_t address;
    uint16_t card, dram, core;

    CHECK(open_text(&session, description, line, 0, &written) == NETCONF_DONE);
    card = node(&session, "card");
    dram = node(&session, "dram");
    core = node(&session, "core0");
    memset(places, 0, sizeof places);
    memset(rows, 0, sizeof rows);
    CHECK(netconf_resolve(&session, 6, 0, NETCONF_FOR_READ, places, 2, &count) == NETCONF_NO_NODE);
    CHECK(netconf_resolve(&session, card, 0, 0, places, 2, &count) == NETCONF_BAD_ARGUMENT);
    CHECK(netconf_resolve(&session, card, 0, 3, places, 2, &count) == NETCONF_BAD_ARGUMENT);
    CHECK(netconf_view(&session, 6, NETCONF_FOR_READ, 0, rows, 4, &count) == NETCONF_NO_NODE);
    CHECK(netconf_view(&session, card, 3, 0, rows, 4, &count) == NETCONF_BAD_ARGUMENT);
    CHECK(count == 7 && places[0].node == 0 && rows[0].last == 0);
    CHECK(netconf_resolve(&session, card, 0, NETCONF_FOR_READ, places, 2, &count) == NETCONF_DONE && count == 0);
    CHECK(netconf_view(&session, card, NETCONF_FOR_READ, 0, rows, 4, &count) == NETCONF_DONE && count == 0);
    CHECK(netconf_grant(&session, 1, card, dram, 0x9000, 0x2000, NETCONF_READ, &address) == NETCONF_DONE);
    CHECK(netconf_grant_at(&session, 2, card, dram, 0x4000, 0x1000, NETCONF_READ_WRITE, 0x3000, &address)
          == NETCONF_DONE);
    CHECK(netconf_resolve(&session, card, 0x1008, NETCONF_FOR_READ, places, 0, &count) == NETCONF_DONE);
    CHECK(count == 1 && places[0].address == 0);
    CHECK(netconf_resolve(&session, card, 0x1008, NETCONF_FOR_READ, places, 2, &count) == NETCONF_DONE);
    CHECK(count == 1 && places[0].node == dram && places[0].unused == 0 && places[0].address == 0xa008);
    CHECK(netconf_resolve(&session, card, 0x1008, NETCONF_FOR_WRITE, places, 2, &count) == NETCONF_DONE && count == 0);
    CHECK(netconf_resolve(&session, card, 0x4000, NETCONF_FOR_READ, places, 2, &count) == NETCONF_DONE && count == 0);
    CHECK(netconf_view(&session, card, NETCONF_FOR_READ, 0, NULL, 0, &count) == NETCONF_DONE && count == 2);
    CHECK(netconf_view(&session, card, NETCONF_FOR_READ, 1, rows, 4, &count) == NETCONF_DONE && count == 2);
    CHECK(rows[0].first == 0x3000 && rows[0].last == 0x3fff && rows[0].place.address == 0x4000);
    CHECK(rows[1].last == 0);
    CHECK(netconf_view(&session, card, NETCONF_FOR_READ, 0, rows, 4, &count) == NETCONF_DONE && count == 2);
    CHECK(rows[0].first == 0 && rows[0].last == 0x1fff && rows[0].place.node == dram && rows[0].place.unused == 0);
    CHECK(rows[0].place.address == 0x9000 && rows[1].first == 0x3000 && rows[2].last == 0);
    CHECK(netconf_view(&session, card, NETCONF_FOR_READ, 2, rows, 4, &count) == NETCONF_DONE && count == 2);
    CHECK(netconf_view(&session, card, NETCONF_FOR_READ, SIZE_MAX, rows, 4, &count) == NETCONF_DONE && count == 2);
    CHECK(netconf_view(&session, card, NETCONF_FOR_WRITE, 0, rows, 4, &count) == NETCONF_DONE && count == 1);
    CHECK(rows[0].first == 0x3000);
    CHECK(netconf_view(&session, core, NETCONF_FOR_READ, 0, rows, 4, &count) == NETCONF_DONE && count == 1);
    CHECK(rows[0].first == 0x80000000 && rows[0].last == 0xbfffffff && rows[0].place.address == 0);
    CHECK(netconf_revoke(&session, 1) == NETCONF_DONE);
    CHECK(netconf_view(&session, card, NETCONF_FOR_READ, 0, rows, 4, &count) == NETCONF_DONE && count == 1);
    CHECK(rows[0].first == 0x3000);
    netconf_close(&session);
}

static const char *const audited = "audit bytes 48 records 2 shut 0 shared 1\n"
                                   "view core0 for read rows 1\n"
                                   "0x80000000-0xbfffffff dram@0x0\n"
                                   "view core0 for write rows 1\n"
                                   "0x80000000-0xbfffffff dram@0x0\n"
                                   "view card for read rows 1\n"
                                   "0x0-0x1fff dram@0x9000\n"
                                   "view card for write rows 1\n"
                                   "0x0-0x1fff dram@0x9000\n"
                                   "shared dram 0x9000-0xafff core0 card\n";

/* The image of the tables is that which the program dumps (examples/first_grant.out has it). */
static void test_image(void)
{
    static const uint8_t expected[] = {0x44, 0x4e, 0x49, 0x4d, 2, 0, 1, 0, 4, 0,   1, 0, 4, 0, 0, 0,
                                       1,    9,    0,    4,    0, 0, 0, 0, 1, 0xa, 0, 4, 0, 0, 0, 0};
    struct netconf session = {0};
    struct netconf_place places[1];
    uint8_t out[64], report[512];
    size_t written = 7, count = 7, byte;
    uint64_t address, at = 7;

    CHECK(open_text(&session, description, out, 0, &written) == NETCONF_DONE);
    CHECK(netconf_grant(&session, 1, 5, 0, 0x9000, 0x2000, NETCONF_READ_WRITE, &address) == NETCONF_DONE);
    memset(out, 0xa5, sizeof out);
    CHECK(netconf_image(&session, out, 0, &written) == NETCONF_TOO_SMALL && written == 48);
    CHECK(netconf_image(&session, out, 47, &written) == NETCONF_TOO_SMALL && written == 48 && out[0] == 0xa5);
    CHECK(netconf_image(&session, out, sizeof out, &written) == NETCONF_DONE && written == 48);
    CHECK(!memcmp(out, expected, sizeof expected));
    for (byte = sizeof expected; byte < sizeof out; byte++) CHECK(out[byte] == (byte < 48 ? 0 : 0xa5));
    CHECK(netconf_image(&session, out, 48, &written) == NETCONF_DONE && written == 48);
    /* The image says the same when the grant is gone. */
    CHECK(netconf_revoke(&session, 1) == NETCONF_DONE);
    CHECK(netconf_lookup(&session, out, 48, 5, 0x1008, 0, places, 1, &count, &at) == NETCONF_BAD_ARGUMENT);
    CHECK(netconf_lookup(&session, out, 48, 4, 0x1008, NETCONF_FOR_READ, places, 1, &count, &at) == NETCONF_NO_AGENT);
    CHECK(netconf_lookup(&session, out, 48, 99, 0x1008, NETCONF_FOR_READ, places, 1, &count, &at) == NETCONF_NO_AGENT);
    CHECK(count == 7 && at == 7);
    CHECK(netconf_lookup(&session, out, 48, 5, 0x1008, NETCONF_FOR_READ, places, 0, &count, &at) == NETCONF_DONE);
    CHECK(count == 1 && at == 7);
    CHECK(netconf_lookup(&session, out, 48, 5, 0x1008, NETCONF_FOR_WRITE, places, 1, &count, &at) == NETCONF_DONE);
    CHECK(count == 1 && places[0].node == 0 && places[0].address == 0xa008 && places[0].unused == 0);
    CHECK(netconf_lookup(&session, out, 48, 5, 0x3000, NETCONF_FOR_READ, places, 1, &count, &at) == NETCONF_DONE);
    CHECK(count == 0);
    CHECK(netconf_lookup(&session, out, 47, 5, 0, NETCONF_FOR_READ, places, 1, &count, &at) == NETCONF_IMAGE_SHORT);
    CHECK(at == 47);
    CHECK(netconf_lookup(&session, NULL, 0, 5, 0, NETCONF_FOR_READ, places, 1, &count, &at) == NETCONF_IMAGE_SHORT);
    CHECK(at == 0);
    CHECK(netconf_lookup(&session, out, 49, 5, 0, NETCONF_FOR_READ, places, 1, &count, &at) == NETCONF_IMAGE_TRAILING);
    CHECK(at == 48);
    CHECK(netconf_audit(&session, out, 48, report, 0, &count, &at) == NETCONF_TOO_SMALL && count == strlen(audited));
    CHECK(netconf_audit(&session, out, 48, report, count, &count, &at) == NETCONF_DONE && count == strlen(audited));
    CHECK(!memcmp(report, audited, count) && at == 48);
    CHECK(netconf_audit(&session, out, 47, report, sizeof report, &count, &at) == NETCONF_IMAGE_SHORT && at == 47);
    CHECK(netconf_audit(&session, out, 49, report, sizeof report, &count, &at) == NETCONF_IMAGE_TRAILING && at == 48);
    CHECK(count == strlen(audited));
    out[4] = 9;
    CHECK(netconf_audit(&session, out, 48, report, sizeof report, &count, &at) == NETCONF_IMAGE_HEADER && at == 4);
    CHECK(netconf_lookup(&session, out, 48, 5, 0, NETCONF_FOR_READ, places, 1, &count, &at) == NETCONF_IMAGE_HEADER);
    CHECK(at == 4);
    out[4] = 2;
    out[8] = 5;
    CHECK(netconf_audit(&session, out, 48, report, sizeof report, &count, &at) == NETCONF_IMAGE_SHAPE && at == 0);
    CHECK(netconf_lookup(&session, out, 48, 5, 0, NETCONF_FOR_READ, places, 1, &count, &at) == NETCONF_IMAGE_SHAPE);
    CHECK(at == 0);
    netconf_close(&session);
    CHECK(netconf_lookup(&session, out, 48, 5, 0, NETCONF_FOR_READ, places, 1, &count, &at) == NETCONF_CLOSED);
    CHECK(netconf_audit(&session, out, 48, report, sizeof report, &count, &at) == NETCONF_CLOSED);
}

/* A buffer in pieces is seen at consecutive addresses, and each refusal of one. */
static void test_gather(void)
{
    struct netconf session = {0};
    struct netconf_piece pieces[9] = {{0, 0, 0, 0, 0}};
    struct netconf_row rows[4];
    uint8_t line[1];
    size_t written, count, at;
    uint64_t address = 77;
    uint32_t piece = 88;

    CHECK(netconf_gather(&session, 5, pieces, 0, NETCONF_READ, &address, &piece) == NETCONF_BAD_ARGUMENT);
    CHECK(open_text(&session, description, line, 0, &written) == NETCONF_DONE);
    for (at = 0; at < 9; at++) {
        pieces[at].id = (uint32_t)at;
        pieces[at].base = 0x10000 - 0x1000 * (uint64_t)at;
        pieces[at].size = 0x1000;
    }
    CHECK(netconf_gather(&session, 5, pieces, 0, NETCONF_READ, &address, &piece) == NETCONF_BAD_ARGUMENT);
    CHECK(netconf_gather(&session, 5, pieces, 9, NETCONF_READ, &address, &piece) == NETCONF_BAD_ARGUMENT);
    CHECK(netconf_gather(&session, 5, pieces, 2, 4, &address, &piece) == NETCONF_BAD_ARGUMENT);
    CHECK(netconf_gather(&session, 0, pieces, 2, NETCONF_READ, &address, &piece) == NETCONF_NO_AGENT);
    CHECK(netconf_gather(&session, 5, pieces, 8, NETCONF_READ, &address, &piece) == NETCONF_NO_PLACEMENT);
    CHECK(address == 77 && piece == 88);
    pieces[1].id = 0;
    CHECK(netconf_gather(&session, 5, pieces, 2, NETCONF_READ, &address, &piece) == NETCONF_ID_USED && piece == 1);
    pieces[1].id = 1;
    pieces[2].node = 99;
    CHECK(netconf_gather(&session, 5, pieces, 3, NETCONF_READ, &address, &piece) == NETCONF_NO_TARGET && piece == 2);
    pieces[2].node = 0;
    pieces[1].base = 0x40000000;
    CHECK(address == 77);
    CHECK(netconf_gather(&session, 5, pieces, 3, NETCONF_READ, &address, &piece) == NETCONF_NOT_ACCEPTED);
    CHECK(piece == 1 && address == 0x40000000);
    pieces[1].base = 0xf000;
    CHECK(netconf_gather(&session, 5, pieces, 3, NETCONF_READ, &address, &piece) == NETCONF_DONE && address == 0);
    CHECK(netconf_view(&session, 5, NETCONF_FOR_READ, 0, rows, 4, &count) == NETCONF_DONE && count == 3);
    for (at = 0; at < 3; at++)
        CHECK(rows[at].first == 0x1000 * at && rows[at].place.address == 0x10000 - 0x1000 * (uint64_t)at);
    CHECK(netconf_gather(&session, 5, pieces, 1, NETCONF_READ, &address, &piece) == NETCONF_ID_USED && piece == 0);
    CHECK(netconf_revoke(&session, 1) == NETCONF_DONE);
    CHECK(netconf_view(&session, 5, NETCONF_FOR_READ, 0, rows, 4, &count) == NETCONF_DONE && count == 2);
    netconf_close(&session);
    CHECK(netconf_gather(&session, 5, pieces, 2, NETCONF_READ, &address, &piece) == NETCONF_CLOSED);
}

static const char *const lines = "vectors cpu is accept [0x0-0xff];\n"
                                 "unit remapper kind vectors page 0 slots 2 reach 8 to cpu;\n"
                                 "agent disk is map [0x0-0x1 to remapper at 0x0];\n"
                                 "sram is accept [0x0-0xfff];\n";

/* Lines are routed to vectors, and each refusal of a route. */
static void test_routes(void)
{
    struct netconf session = {0};
    struct netconf_place places[1];
    uint8_t line[1];
    size_t written, count;
    uint64_t vector = 77;
    uint16_t disk, cpu, sram;

    CHECK(open_text(&session, lines, line, 0, &written) == NETCONF_DONE);
    disk = node(&session, "disk");
    cpu = node(&session, "cpu");
    sram = node(&session, "sram");
    CHECK(netconf_route(&session, 1, cpu, 0, cpu, &vector) == NETCONF_NO_AGENT);
    CHECK(netconf_route(&session, 1, 999, 0, cpu, &vector) == NETCONF_NO_AGENT);
    CHECK(netconf_route(&session, 1, disk, 0, sram, &vector) == NETCONF_NO_TARGET);
    CHECK(netconf_route(&session, 1, disk, 0, 999, &vector) == NETCONF_NO_TARGET);
    CHECK(netconf_route(&session, 1, disk, 2, cpu, &vector) == NETCONF_NO_PLACEMENT);
    CHECK(netconf_grant(&session, 1, disk, cpu, 0, 1, NETCONF_READ, &vector) == NETCONF_NO_TARGET);
    CHECK(vector == 77);
    CHECK(netconf_route(&session, 1, disk, 1, cpu, &vector) == NETCONF_DONE && vector == 0);
    CHECK(netconf_route(&session, 1, disk, 0, cpu, &vector) == NETCONF_ID_USED);
    CHECK(netconf_route(&session, 2, disk, 0, cpu, &vector) == NETCONF_DONE && vector == 1);
    CHECK(netconf_resolve(&session, disk, 0, NETCONF_FOR_WRITE, places, 1, &count) == NETCONF_DONE);
    CHECK(count == 1 && places[0].node == cpu && places[0].address == 1);
    CHECK(netconf_revoke(&session, 1) == NETCONF_DONE);
    CHECK(netconf_route(&session, 3, disk, 0, cpu, &vector) == NETCONF_NO_PLACEMENT && vector == 1);
    CHECK(netconf_route(&session, 3, disk, 1, cpu, &vector) == NETCONF_DONE && vector == 0);
    netconf_close(&session);
}

/* A book of 4,096 grants takes no more, also at an address and of a line, until one is taken out. */
static void test_book_full(void)
{
    static const char *const text = "dram is accept [0x0-0xffffffff]; vectors cpu is accept [0x20-0x2f];\n"
                                    "unit iommu kind pages page 12 slots 8192 reach 40 to dram;\n"
                                    "unit remapper kind vectors page 0 slots 4 reach 8 to cpu;\n"
                                    "agent card is map [0x0-0x1ffffff to iommu at 0x0];\n"
                                    "agent nic is map [0x0-0x3 to remapper at 0x0];\n";
    struct netconf session = {0};
    uint8_t line[1];
    size_t written;
    uint64_t address, left = 77;
    uint16_t card, dram, nic, cpu;
    uint32_t id;

    CHECK(open_text(&session, text, line, 0, &written) == NETCONF_DONE);
    card = node(&session, "card");
    dram = node(&session, "dram");
    nic = node(&session, "nic");
    cpu = node(&session, "cpu");
    for (id = 0; id < 4096; id++) {
        CHECK(netconf_grant(&session, id, card, dram, (uint64_t)id << 12, 0x1000, NETCONF_READ, &address)
              == NETCONF_DONE);
        CHECK(address == (uint64_t)id << 12);
        CHECK(netconf_settle(&session) == NETCONF_DONE);
    }
    CHECK(netconf_grant(&session, id, card, dram, 0, 0x1000, NETCONF_READ, &left) == NETCONF_BOOK_FULL);
    CHECK(netconf_grant_at(&session, id, card, dram, 0, 0x1000, NETCONF_READ, 0x1fff000, &left) == NETCONF_BOOK_FULL);
    CHECK(netconf_route(&session, id, nic, 0, cpu, &left) == NETCONF_BOOK_FULL);
    CHECK(left == 77);
    CHECK(netconf_grant(&session, id, card, dram, 0xffffffff, 2, NETCONF_READ, &address) == NETCONF_NOT_ACCEPTED);
    CHECK(netconf_revoke(&session, 2000) == NETCONF_DONE);
    CHECK(netconf_route(&session, id, nic, 0, cpu, &left) == NETCONF_DONE && left == 0x20);
    netconf_close(&session);
    CHECK(live_blocks == 0);
}

#define CALLS 12

/* One call of a history in which each is done. */
static uint32_t call_number(struct netconf *session, unsigned number)
{
    struct netconf_place places[1];
    struct netconf_row rows[2];
    char text[1024];
    static const struct netconf_piece pieces[1] = {{4, 0, 0, 0x20000, 0x1000}};
    uint8_t line[1], image[128], report[1024];
    size_t written;
    uint64_t address;
    uint32_t status, piece;

    switch (number) {
    case 0:
        snprintf(text, sizeof text, "%s%s", description, lines);
        return open_text(session, text, line, 0, &written);
    case 1:
        return netconf_grant(session, 1, 5, 0, 0x9000, 0x2000, NETCONF_READ_WRITE, &address);
    case 2:
        return netconf_grant_at(session, 2, 5, 0, 0x4000, 0x1000, NETCONF_READ, 0x3000, &address);
    case 3:
        return netconf_resolve(session, 5, 0x3000, NETCONF_FOR_READ, places, 1, &written);
    case 4:
        return netconf_view(session, 5, NETCONF_FOR_READ, 0, rows, 2, &written);
    case 5:
        return netconf_image(session, image, sizeof image, &written);
    case 6:
        return netconf_route(session, 3, 8, 0, 6, &address);
    case 7:
        return netconf_revoke(session, 3);
    case 8:
        status = netconf_image(session, image, sizeof image, &written);
        if (status != NETCONF_DONE) return status;
        return netconf_lookup(session, image, written, 5, 0x3000, NETCONF_FOR_READ, places, 1, &written, &address);
    case 9:
        status = netconf_image(session, image, sizeof image, &written);
        if (status != NETCONF_DONE) return status;
        return netconf_audit(session, image, written, report, sizeof report, &written, &address);
    case 10:
        return netconf_gather(session, 5, pieces, 1, NETCONF_READ, &address, &piece);
    default:
        return netconf_revoke(session, 1);
    }
}

/* How many events are pending; none where the session is closed. */
static size_t pending_count(struct netconf *session)
{
    struct netconf_event events[64];
    size_t count;

    netconf_pending(session, 0, events, 64, &count);
    return count;
}

/* With the n-th allocation failing, the call in which it is has changed nothing, and is done when it is made again. */
static void test_memory(void)
{
    long failing;
    unsigned number = 0;

    for (failing = 0; number < CALLS && failing < 10000; failing++) {
        struct netconf session = {0};
        size_t pending = 0;
        uint32_t status = NETCONF_DONE;

        allocations_left = failing;
        for (number = 0; number < CALLS; number++) {
            pending = pending_count(&session);
            status = call_number(&session, number);
            if (status != NETCONF_DONE) break;
        }
        allocations_left = -1;
        if (number < CALLS) {
            CHECK(status == NETCONF_NO_MEMORY);
            CHECK((session.held == NULL) == (number == 0));
            CHECK(pending_count(&session) == pending);
            for (; number < CALLS; number++) CHECK(call_number(&session, number) == NETCONF_DONE);
            number = 0;
        }
        CHECK(netconf_revoke(&session, 1) == NETCONF_NO_GRANT);
        CHECK(netconf_revoke(&session, 2) == NETCONF_DONE);
        netconf_close(&session);
        CHECK(live_blocks == 0);
    }
    CHECK(failing > 100);
}

/* A session that was opened while another is open does not meet it. */
static void test_two_sessions(void)
{
    struct netconf one = {0}, other = {0};
    uint8_t line[1];
    size_t written;
    uint64_t address;

    CHECK(open_text(&one, description, line, 0, &written) == NETCONF_DONE);
    CHECK(open_text(&other, description, line, 0, &written) == NETCONF_DONE);
    CHECK(netconf_grant(&one, 1, 5, 0, 0x9000, 0x1000, NETCONF_READ, &address) == NETCONF_DONE);
    CHECK(netconf_revoke(&other, 1) == NETCONF_NO_GRANT);
    CHECK(netconf_grant(&other, 1, 5, 0, 0x9000, 0x1000, NETCONF_READ, &address) == NETCONF_DONE && address == 0);
    netconf_close(&one);
    CHECK(netconf_revoke(&other, 1) == NETCONF_DONE);
    netconf_close(&other);
    CHECK(live_blocks == 0);
}

/* A session whose struct moves goes on. */
static void test_moved(void)
{
    struct netconf first = {0}, second;
    uint8_t line[1];
    size_t written;
    uint64_t address;

    CHECK(open_text(&first, description, line, 0, &written) == NETCONF_DONE);
    second = first;
    memset(&first, 0, sizeof first);
    CHECK(netconf_grant(&second, 1, 5, 0, 0x9000, 0x1000, NETCONF_READ, &address) == NETCONF_DONE);
    CHECK(netconf_revoke(&first, 1) == NETCONF_CLOSED);
    netconf_close(&second);
}

static const char *const commands = "begin;\n"
                                    "grant rx card dram 0x9000 0x2000;\n"
                                    "view card;\n"
                                    "grant odd card dram 0x4100 0x100;\n"
                                    "resolve card 0x1000;\n";
static const char *const answers = "rx at 0x0\n"
                                   "view card rows 1\n"
                                   "0x0-0x1fff dram@0x9000\n"
                                   "odd refused: NoPlacement\n"
                                   "card@0x1000: dram@0xa000\n";

/* Answers a text of the description and some commands, and compares the answer. */
static uint32_t run_text(const char *more, uint8_t *out, size_t room, size_t *written, uint8_t *exit_status)
{
    char text[1024];

    snprintf(text, sizeof text, "%s%s", description, more);
    return netconf_run((const uint8_t *)text, strlen(text), out, room, written, exit_status);
}

/* A text is answered as the program answers it. */
static void test_run(void)
{
    uint8_t out[256], before[256];
    uint8_t exit_status = 9;
    size_t written = 7, size = strlen(answers);
    long failing;
    uint32_t status;

    memset(out, 0xa5, sizeof out);
    memcpy(before, out, sizeof out);
    CHECK(run_text(commands, out, 0, &written, &exit_status) == NETCONF_TOO_SMALL);
    CHECK(written == size && exit_status == 0);
    CHECK(run_text(commands, out, size - 1, &written, &exit_status) == NETCONF_TOO_SMALL && written == size);
    CHECK(!memcmp(out, before, sizeof out));
    CHECK(run_text(commands, out, size, &written, &exit_status) == NETCONF_DONE);
    CHECK(written == size && exit_status == 0 && !memcmp(out, answers, size));
    CHECK(!memcmp(out + size, before, sizeof out - size));
    CHECK(run_text("a is", out, sizeof out, &written, &exit_status) == NETCONF_DONE && exit_status == 4);
    CHECK(written == strlen("refused: line 7 Statement\n") && !memcmp(out, "refused: line 7 Statement\n", written));
    CHECK(netconf_run(NULL, 0, NULL, 0, &written, &exit_status) == NETCONF_DONE && written == 0 && exit_status == 0);
    memcpy(out, before, sizeof out);
    for (failing = 0, status = NETCONF_NO_MEMORY; status != NETCONF_DONE && failing < 10000; failing++) {
        allocations_left = failing;
        status = run_text(commands, out, sizeof out, &written, &exit_status);
        allocations_left = -1;
        if (status == NETCONF_DONE) break;
        CHECK(status == NETCONF_NO_MEMORY && written == 0 && exit_status == 0);
        CHECK(!memcmp(out, before, sizeof out));
        CHECK(live_blocks == 0);
    }
    CHECK(failing > 100 && written == size && !memcmp(out, answers, size));
}

static void test_status_texts(void)
{
    uint32_t status;

    for (status = 0; status < 28; status++) CHECK(strlen(netconf_status_text(status)) > 3);
    CHECK(!strcmp(netconf_status_text(NETCONF_DONE), "done"));
    CHECK(!strcmp(netconf_status_text(1000), "no status of the library"));
}

static void run_test(const char *name, void (*test)(void))
{
    unsigned before = failures;

    test();
    printf("%s: %s\n", name, failures == before ? "passed" : "FAILED");
}

int main(void)
{
    run_test("closed", test_closed);
    run_test("open", test_open);
    run_test("names", test_names);
    run_test("grants", test_grants);
    run_test("events", test_events);
    run_test("seeing", test_seeing);
    run_test("image", test_image);
    run_test("gather", test_gather);
    run_test("routes", test_routes);
    run_test("book_full", test_book_full);
    run_test("memory", test_memory);
    run_test("two_sessions", test_two_sessions);
    run_test("moved", test_moved);
    run_test("run", test_run);
    run_test("status_texts", test_status_texts);
    CHECK(live_blocks == 0);
    return failures != 0;
}
