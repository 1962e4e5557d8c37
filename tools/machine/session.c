/* A session of the library at work: it opens the description of this machine, and grants, revokes and grants again while the
 * cards read and write. After each step the cards try what the program's `resolve` says at that moment. Between two events of
 * a step an address leads where it led before one of its calls, or where it leads after one. */
#include <netconf.h>

#include "cards.h"
#include "data.h"
#include "events.h"
#include "pc.h"
#include "vtd.h"

#define CARDS       (sizeof cards / sizeof *cards)
#define MOST_EVENTS 256u

static struct netconf session;
static const struct session_step *now;
static const struct state *last;
static unsigned word;    /* of the cards' buffers: each access in flight has one of its own */
static unsigned allowed; /* how many of the places of an access are allowed: before the first event one, then all */

/* ---- the library ---- */

/* Opens the description. A session that was open is closed first: the events of opening clear what it left in the tables. */
static void open_description(void)
{
    struct netconf next = {0};
    uint8_t line[64];
    size_t written;
    if (netconf_open(&next, description, sizeof description - 1, line, sizeof line, &written) != NETCONF_DONE)
        give_up("the library does not open the description");
    netconf_close(&session);
    session = next;
}

/* No interrupt comes in a call, which has values below the stack pointer: a card sends messages where the trial waits for them. */
static uint32_t answer(const struct call *call, uint64_t *address)
{
    uint32_t piece;
    switch (call->kind) {
    case CALL_GRANT:
        return netconf_grant(&session, call->id, call->agent, call->node, call->base, call->size, call->rights,
                             address);
    case CALL_GRANT_AT:
        return netconf_grant_at(&session, call->id, call->agent, call->node, call->base, call->size, call->rights,
                                call->address, address);
    case CALL_GATHER:
        return netconf_gather(&session, call->agent, call->pieces, call->piece_count, call->rights, address, &piece);
    case CALL_ROUTE:
        return netconf_route(&session, call->id, call->agent, call->base, call->node, address);
    default:
        return netconf_revoke(&session, call->id);
    }
}

/* Makes a call, and compares its answer with that of the program. */
static void make_call(const struct call *call)
{
    uint64_t address = 0;
    uint32_t status = answer(call, &address);
    if (differs(status == call->status && (status != NETCONF_DONE || address == call->address)))
        print("call of id %d: the library answers %s at %x, the program %s at %x\n", (unsigned)call->id,
              netconf_status_text(status), address, netconf_status_text(call->status), call->address);
    end_of_comparison();
}

/* ---- accesses in flight ---- */

/* Starts an access; of a write the word is one that no memory has. */
static void start(const struct flight *flight)
{
    start_copy(flight->card, flight->is_write, flight->address + 8 * flight->is_write, word, 8);
}

static unsigned allowed_of(const struct flight *flight) { return allowed < flight->count ? allowed : flight->count; }

/* A write arrives at one of the places that are allowed, or nowhere where that is allowed. */
static void end_write(const struct flight *flight)
{
    uint64_t value = held[flight->card][word];
    unsigned n, is_nowhere = 0, arrived = 0;
    for (n = 0; n < allowed_of(flight); n++) {
        if (flight->allowed[n] == NOWHERE) {
            is_nowhere = 1;
        } else if (*memory_at(flight->allowed[n] + 8) == value) {
            *shadow_at(flight->allowed[n] + 8) = value;
            arrived++;
        }
    }
    if (differs(arrived == 1 || (arrived == 0 && is_nowhere)))
        print("%s writes at %x between two events: it arrives at %d places\n", cards[flight->card].name,
              flight->address + 8, arrived);
}

/* A card read what is at one of the places that are allowed, or 0 where nowhere is allowed. What it read is seen when it
 * writes its buffer. */
static void compare_read(const struct flight *flight, unsigned count, uint64_t value)
{
    unsigned n, is_fine = 0;
    for (n = 0; n < count; n++)
        is_fine |= value == (flight->allowed[n] == NOWHERE ? 0 : *shadow_at(flight->allowed[n]));
    if (differs((int)is_fine))
        print("%s reads at %x between two events: it has %x\n", cards[flight->card].name, flight->address, value);
}

/* What was read in flight: the access, the word of the buffer that has it, and how many places are allowed. */
static struct {
    const struct flight *flight;
    unsigned word, allowed;
} reads[CARDS * CARD_WORDS];
static unsigned read_count;

static void end(const struct flight *flight)
{
    await_copy(flight->card);
    if (flight->is_write) {
        end_write(flight);
    } else {
        reads[read_count].flight = flight;
        reads[read_count].allowed = allowed_of(flight);
        reads[read_count++].word = word;
    }
    end_of_comparison();
}

/* Performs an event of the library. */
static void perform(const struct netconf_event *event)
{
    int failed = event->kind == NETCONF_MAKE         ? events_make(event->unit, event->word)
                 : event->kind == NETCONF_WRITE_WORD ? events_write(event->unit, event->word, event->value)
                                                     : events_fence();
    if (failed) give_up("the IOMMU does not perform an event");
}

/* Performs an event while an access of each card is in flight; then the other accesses are made. */
static void perform_in_flight(const struct netconf_event *event)
{
    const struct flight *in_flight[CARDS] = {NULL};
    size_t n;
    for (n = 0; n < now->flight_count && word < CARD_WORDS; n++) {
        const struct flight *flight = &now->flights[n];
        if (in_flight[flight->card] != NULL) continue;
        in_flight[flight->card] = flight;
        start(flight);
    }
    perform(event);
    for (n = 0; n < CARDS; n++)
        if (in_flight[n] != NULL) end(in_flight[n]);
    for (word++, n = 0; n < now->flight_count && word < CARD_WORDS; n++) {
        if (in_flight[now->flights[n].card] == &now->flights[n]) continue;
        start(&now->flights[n]);
        end(&now->flights[n]);
        word++;
    }
}

/* Performs the pending events in order, and says so to the library. The accesses are made once before, and lead where they led:
 * so the IOMMU knows what the events change. */
static void perform_pending(void)
{
    static struct netconf_event events[MOST_EVENTS];
    size_t count, n;
    allowed = 1;
    for (n = 0; n < now->flight_count && word < CARD_WORDS; n++, word++) {
        start(&now->flights[n]);
        end(&now->flights[n]);
    }
    allowed = ~0u;
    if (netconf_pending(&session, 0, events, MOST_EVENTS, &count) != NETCONF_DONE || count == MOST_EVENTS)
        give_up("the library does not tell its events");
    for (n = 0; n < count; n++) perform_in_flight(&events[n]);
    if (netconf_settle(&session) != NETCONF_DONE) give_up("the library does not settle its events");
}

/* Has each card write its buffer, and compares what it read between events. */
static void compare_reads(void)
{
    unsigned card, n;
    for (card = 0; card < CARDS; card++) {
        const struct pages *pages = &now->after.pages[card];
        if (pages->out == NOWHERE) continue;
        for (n = 0; n < read_count; n++)
            if (reads[n].flight->card == card) break;
        if (n == read_count) continue;
        copy(card, 1, pages->out, 0, 8 * CARD_WORDS);
        for (n = 0; n < read_count; n++)
            if (reads[n].flight->card == card)
                compare_read(reads[n].flight, reads[n].allowed, memory_at(pages->out_memory)[reads[n].word]);
        for (n = 0; n < CARD_WORDS; n++) *shadow_at(pages->out_memory + 8 * n) = memory_at(pages->out_memory)[n];
        end_of_comparison();
    }
}

/* ---- all ---- */

static void word_written(unsigned handle) { try_handle(handle, last, &now->after); }

/* Has the IOMMU forget the faults of accesses in flight. */
static void forget_faults(void)
{
    unsigned function;
    uint64_t page;
    int is_write;
    while (vtd_fault(&function, &page, &is_write)) continue;
}

static void try_step(void)
{
    unsigned card;
    size_t n;
    fill_memory();
    for (card = 0; card < CARDS; card++) fill_card(card, &now->before[card]);
    word = read_count = 0;
    if (now->opens) open_description();
    for (n = 0; n < now->call_count; n++) make_call(&now->calls[n]);
    perform_pending();
    /* A lookup may know what was cleared until a fence. The library's own is the first event of the next grant. */
    if (vtd_is_stale() && events_fence()) give_up("the IOMMU does not forget what it knows");
    compare_reads();
    compare_memory("events");
    forget_faults();
    /* Of these accesses the second sort may have the IOMMU forget what it knows. */
    try_cards(&now->after, 0);
    try_cards(&now->after, 1);
    try_messages(&now->after);
    last = &now->after;
}

void trial(void);
void trial(void)
{
    step_name = "step";
    start_processors();
    find_memory(events_layout);
    find_cards(cards, CARDS);
    if (vtd_start()) give_up("the IOMMU does not start, or lacks what the driver needs");
    vtd_word_written = word_written;
    for (step = 0; step < sizeof steps / sizeof *steps; step++) {
        now = &steps[step];
        try_step();
    }
    netconf_close(&session);
    finish();
}
