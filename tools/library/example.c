/* SPDX-License-Identifier: Apache-2.0 */
/*
 * Opens a description on standard input, grants a page of a node to an agent, prints what is to be written, and takes the
 * grant out again.
 *
 * usage: example AGENT NODE BASE < DESCRIPTION
 */
#include <netconf.h>
#include <stdio.h>
#include <stdlib.h>
#include <string.h>

#define LONGEST_TEXT 4194304u

static void print_events(struct netconf *session)
{
    static const char *const kinds[] = {"make", "write", "fence"};
    struct netconf_event events[64];
    size_t from = 0, count, at;

    do {
        if (netconf_pending(session, from, events, 64, &count) != NETCONF_DONE) return;
        for (at = 0; at < count; at++)
            printf("  %s unit %u word %u value %#llx\n", kinds[events[at].kind], (unsigned)events[at].unit,
                   (unsigned)events[at].word, (unsigned long long)events[at].value);
        from += count;
    } while (count == 64);
    netconf_settle(session);
}

static int refuse(const char *what, uint32_t status)
{
    fprintf(stderr, "%s: %s\n", what, netconf_status_text(status));
    return 1;
}

int main(int argc, char **argv)
{
    static uint8_t text[LONGEST_TEXT + 1];
    struct netconf session = {0};
    uint8_t line[256];
    uint16_t agent, node;
    uint64_t address;
    size_t size, written;
    uint32_t status;

    if (argc != 4) {
        fprintf(stderr, "usage: example AGENT NODE BASE < DESCRIPTION\n");
        return 2;
    }
    size = fread(text, 1, sizeof text, stdin);
    status = netconf_open(&session, text, size, line, sizeof line, &written);
    if (status == NETCONF_REFUSED) fprintf(stderr, "%.*s\n", (int)written, line);
    if (status != NETCONF_DONE) return refuse("open", status);
    printf("open\n");
    print_events(&session);
    status = netconf_node(&session, (const uint8_t *)argv[1], strlen(argv[1]), &agent);
    if (status != NETCONF_DONE) return refuse(argv[1], status);
    status = netconf_node(&session, (const uint8_t *)argv[2], strlen(argv[2]), &node);
    if (status != NETCONF_DONE) return refuse(argv[2], status);
    status = netconf_grant(&session, 1, agent, node, strtoull(argv[3], NULL, 0), 0x1000, NETCONF_READ_WRITE, &address);
    if (status != NETCONF_DONE) return refuse("grant", status);
    printf("granted at %#llx\n", (unsigned long long)address);
    print_events(&session);
    status = netconf_revoke(&session, 1);
    if (status != NETCONF_DONE) return refuse("revoke", status);
    printf("revoked\n");
    print_events(&session);
    netconf_close(&session);
    return 0;
}
