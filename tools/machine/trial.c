/* Loads the tables of each dump and tries with four cards what `lookup` says of them. */
#include "board.h"
#include "cards.h"
#include "data.h"
#include "pc.h"
#include "vtd.h"

#define CARDS (sizeof cards / sizeof *cards)

static const struct state *last_state, *next_state;

static void word_written(unsigned handle) { try_handle(handle, last_state, next_state); }

/* After a fence nothing may be known any more of what was cleared: this is tried first. */
static void fence_passed(void)
{
    try_cards(&steps[step].at_fence, 0);
    try_cards(&steps[step].at_fence, 1);
    try_messages(&steps[step].at_fence);
#ifdef SHOW
    print("fence %d\n", step);
#endif
}

void trial(void);
void trial(void)
{
    static struct netconf_image images[2];
    const struct netconf_image *before = NULL;
    step_name = "dump";
    start_processors();
    find_memory(&board);
    find_cards(cards, CARDS);
    if (vtd_start()) give_up("the IOMMU does not start, or lacks what the driver needs");
    vtd_word_written = word_written;
    vtd_fence_passed = fence_passed;
    try_state(&steps[0].loaded);
    last_state = &steps[0].loaded;
    for (step = 1; step < sizeof steps / sizeof *steps; step++) {
        struct netconf_image *next = &images[step & 1];
        struct netconf_problem problem = netconf_open(next, &board, steps[step].image, steps[step].size);
        if (problem.fault != NETCONF_FAULT_NONE) give_up(netconf_fault_text(problem.fault));
        next_state = &steps[step].loaded;
        if (vtd_load(before, next)) give_up("the tables cannot be loaded");
        try_state(next_state);
        last_state = next_state;
        before = next;
    }
    finish();
}
