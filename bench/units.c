/* SPDX-License-Identifier: Apache-2.0 */
/*
 * The case "256 grants, and 1,000 revokes and grants" of the program's bench, by the library: 16 agents behind a unit of 65,536
 * slots each, a grant of one page 16 times for each, and then so many times a grant is taken out and made anew.
 *
 * usage: units PAIRS
 */
#include <netconf.h>
#include <stdio.h>
#include <stdlib.h>
#include <string.h>

#define AGENTS 16u
#define EACH   16u

static struct netconf session;
static uint16_t agents[AGENTS], dram;

static int is_open(void)
{
    static const char *const text = "dram is accept [0x0-0xffffffff];"
                                    "bus is map [0x100000000-0x1ffffffff to dram at 0x0];"
                                    "for i in 0..15;"
                                    "agent a[i] is map [0x0-0xfffffff to u[i] at 0x0];"
                                    "unit u[i] kind pages page 12 slots 65536 reach 40 to bus;"
                                    "end;";
    uint8_t line[64];
    size_t written;
    unsigned agent;

    if (netconf_open(&session, (const uint8_t *)text, strlen(text), line, sizeof line, &written) != NETCONF_DONE)
        return 0;
    if (netconf_node(&session, (const uint8_t *)"dram", 4, &dram) != NETCONF_DONE) return 0;
    for (agent = 0; agent < AGENTS; agent++) {
        char name[8];
        size_t size = (size_t)sprintf(name, "a[%u]", agent);

        if (netconf_node(&session, (const uint8_t *)name, size, &agents[agent]) != NETCONF_DONE) return 0;
    }
    return netconf_settle(&session) == NETCONF_DONE;
}

static int is_granted(unsigned agent, unsigned number)
{
    uint32_t id = agent * EACH + number;
    uint64_t address;

    return netconf_grant(&session, id, agents[agent], dram, (uint64_t)id << 12, 0x1000, NETCONF_READ_WRITE, &address)
               == NETCONF_DONE
           && netconf_settle(&session) == NETCONF_DONE;
}

static int is_revoked(unsigned agent, unsigned number)
{
    return netconf_revoke(&session, agent * EACH + number) == NETCONF_DONE && netconf_settle(&session) == NETCONF_DONE;
}

int main(int argc, char **argv)
{
    unsigned pairs = argc == 2 ? (unsigned)strtoul(argv[1], NULL, 0) : 0, at;

    if (!is_open()) return 1;
    for (at = 0; at < AGENTS * EACH; at++)
        if (!is_granted(at / EACH, at % EACH)) return 1;
    for (at = 0; at < pairs; at++)
        if (!is_revoked(at % AGENTS, at / AGENTS % EACH) || !is_granted(at % AGENTS, at / AGENTS % EACH)) return 1;
    netconf_close(&session);
    return 0;
}
