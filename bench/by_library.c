/* SPDX-License-Identifier: Apache-2.0 */
/* A page by the library: a grant or a revoke, and netconf_settle. */
#include "sessions.h"

#include <netconf.h>
#include <stdio.h>
#include <string.h>

static struct netconf session;
static uint16_t card, dram;

/* A board with a card behind a unit, and so many agents beside it that see the memory. */
static int begin(unsigned agents)
{
    static char text[8192];
    size_t size, written;
    uint8_t line[64];
    unsigned agent;

    size = (size_t)sprintf(text, "dram is accept [0x0-0xffffffff];"
                                 "unit iommu kind pages page 12 slots 8192 reach 40 to dram;"
                                 "agent card is map [0x0-0x1ffffff to iommu at 0x0];");
    for (agent = 1; agent < agents; agent++) size += (size_t)sprintf(text + size, "agent core%u is over dram;", agent);
    return netconf_open(&session, (const uint8_t *)text, size, line, sizeof line, &written) != NETCONF_DONE
           || netconf_node(&session, (const uint8_t *)"card", 4, &card) != NETCONF_DONE
           || netconf_node(&session, (const uint8_t *)"dram", 4, &dram) != NETCONF_DONE
           || netconf_settle(&session) != NETCONF_DONE;
}

static int map(uint32_t id, uint64_t base, uint64_t *address)
{
    return netconf_grant(&session, id, card, dram, base, 1u << PAGE, NETCONF_READ_WRITE, address) != NETCONF_DONE
           || netconf_settle(&session) != NETCONF_DONE;
}

static int unmap(uint32_t id, uint64_t address)
{
    (void)address;
    return netconf_revoke(&session, id) != NETCONF_DONE || netconf_settle(&session) != NETCONF_DONE;
}

const struct way by_library = {"library", begin, map, unmap};
