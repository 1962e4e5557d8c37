/* What the trial of the library expects: `session.py` writes it to data.h, from replies of the program. */
#ifndef SESSION_H
#define SESSION_H

#include "trial.h"

#include <netconf.h>

enum call_kind {
    CALL_GRANT,
    CALL_GRANT_AT,
    CALL_GATHER,
    CALL_ROUTE,
    CALL_REVOKE
};

/* A call, and what the program answers to it: the status, and the address of a grant that is done, or the vector of a route. The
 * base of a route is its line. */
struct call {
    uint64_t base, size, address;
    const struct netconf_piece *pieces;
    size_t piece_count;
    uint32_t id, status;
    enum call_kind kind;
    uint16_t agent, node;
    uint8_t rights;
};

/* An access between events: the processor's addresses to which the agent's address may lead, or NOWHERE; the first of them is
 * that to which it leads before the first event. */
struct flight {
    uint64_t address, allowed[4];
    uint8_t count, card, is_write;
};

/* Calls whose events are performed together. `opens` says that the description is opened before. `before` has the pages of each
 * card as they are then. */
struct session_step {
    const struct call *calls;
    const struct flight *flights;
    const struct pages *before;
    size_t call_count, flight_count;
    struct state after;
    int opens;
};

#endif
