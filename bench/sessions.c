/* SPDX-License-Identifier: Apache-2.0 */
/*
 * Maps and unmaps a page beside live pages, by one way.
 *
 * usage: sessions WAY AGENTS LIVE PAIRS
 *
 * WAY is library, hand or tree. PAIRS times a page is mapped and unmapped, while LIVE pages are mapped. It prints the
 * processor time of one map and unmap in microseconds, the least of twenty rounds; nothing where PAIRS is 0.
 */
#include "sessions.h"

#include <stdio.h>
#include <stdlib.h>
#include <string.h>
#include <time.h>

#define ROUNDS 20
#define ID     900000u

static double now(void)
{
    struct timespec at;

    clock_gettime(CLOCK_PROCESS_CPUTIME_ID, &at);
    return (double)at.tv_sec * 1e6 + (double)at.tv_nsec / 1e3;
}

/* The time of a round, in microseconds; negative where a call is not done. */
static double round_of(const struct way *way, unsigned pairs)
{
    double began = now();
    uint64_t address;
    unsigned pair;

    for (pair = 0; pair < pairs; pair++)
        if (way->map(ID, 0x12345000, &address) || way->unmap(ID, address)) return -1;
    return now() - began;
}

int main(int argc, char **argv)
{
    static const struct way *const ways[] = {&by_library, &by_hand, &by_tree};
    const struct way *way = NULL;
    unsigned agents, live, pairs, at, rounds;
    uint64_t address;
    double least = -1, took;

    if (argc != 5) return 2;
    for (at = 0; at < sizeof ways / sizeof *ways; at++)
        if (!strcmp(argv[1], ways[at]->name)) way = ways[at];
    agents = (unsigned)strtoul(argv[2], NULL, 0);
    live = (unsigned)strtoul(argv[3], NULL, 0);
    pairs = (unsigned)strtoul(argv[4], NULL, 0);
    if (!way || way->begin(agents)) return 2;
    for (at = 0; at < live; at++)
        if (way->map(at, (uint64_t)(at * 7) << PAGE, &address)) return 1;
    rounds = pairs < ROUNDS ? pairs : ROUNDS;
    for (at = 0; at < rounds; at++) {
        took = round_of(way, pairs / rounds) / (pairs / rounds);
        if (took < 0) return 1;
        if (least < 0 || took < least) least = took;
    }
    if (rounds) printf("%.2f\n", least);
    return 0;
}
