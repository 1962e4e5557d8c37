/* SPDX-License-Identifier: Apache-2.0 */
/*
 * A page by a search that is written by hand for boards of this form: agents that have windows onto one unit, or see the memory
 * and nothing else. It gives the answers of the library there: the id is no live grant's, the node accepts the buffer, and the
 * first slot of the card's windows is taken that is free and that no other agent sees. Events are kept in an array, with a
 * fence before the first write after a clear. It goes over plain arrays.
 */
#include "sessions.h"

#define MOST_AGENTS 64
#define MOST_EVENTS 16

struct window {
    uint64_t first, last;
    uint32_t slot;
    int is_there;
};

struct grant {
    uint32_t id, slot;
};

struct event {
    uint32_t kind, word;
    uint64_t value;
};

static struct window windows[MOST_AGENTS];
static unsigned agent_count;
static uint64_t words[SLOTS];
static uint32_t used[SLOTS];
static struct grant grants[MOST];
static unsigned grant_count, event_count;
static struct event events[MOST_EVENTS];
static int is_stale;

static int begin(unsigned agents)
{
    unsigned agent;

    agent_count = agents;
    for (agent = 0; agent < agents; agent++)
        windows[agent] = (struct window){0, ((uint64_t)SLOTS << PAGE) - 1, 0, agent == 0};
    return agents > MOST_AGENTS;
}

/* Whether an agent other than the card sees a slot. */
static int is_seen(uint32_t slot)
{
    unsigned agent;

    for (agent = 1; agent < agent_count; agent++) {
        const struct window *window = &windows[agent];

        if (window->is_there && slot >= window->slot && slot - window->slot <= (window->last - window->first) >> PAGE)
            return 1;
    }
    return 0;
}

static void tell(uint32_t kind, uint32_t word, uint64_t value)
{
    events[event_count++] = (struct event){kind, word, value};
}

static int map(uint32_t id, uint64_t base, uint64_t *address)
{
    const struct window *window = &windows[0];
    uint32_t slot, last = window->slot + (uint32_t)((window->last - window->first) >> PAGE);
    unsigned at;

    if (grant_count == MOST || base & ((1u << PAGE) - 1) || base >> 32) return 1;
    for (at = 0; at < grant_count; at++)
        if (grants[at].id == id) return 1;
    for (slot = window->slot; slot <= last; slot++)
        if (!used[slot] && !is_seen(slot)) break;
    if (slot > last) return 1;
    if (is_stale) tell(2, 0, 0);
    is_stale = 0;
    words[slot] = base >> PAGE << 8 | 1;
    used[slot]++;
    tell(1, slot, words[slot]);
    grants[grant_count++] = (struct grant){id, slot};
    *address = window->first + ((uint64_t)(slot - window->slot) << PAGE);
    event_count = 0;
    return 0;
}

static int unmap(uint32_t id, uint64_t address)
{
    unsigned at;

    (void)address;
    for (at = 0; at < grant_count && grants[at].id != id; at++) continue;
    if (at == grant_count) return 1;
    if (--used[grants[at].slot] == 0) {
        words[grants[at].slot] = 0;
        tell(1, grants[at].slot, 0);
        is_stale = 1;
    }
    /* The order of granting is kept. */
    for (grant_count--; at < grant_count; at++) grants[at] = grants[at + 1];
    event_count = 0;
    return 0;
}

const struct way by_hand = {"hand", begin, map, unmap};
