/* The memory and the cards of a trial: what a card reads, writes and signals is compared with what is expected. Each comparison
 * is counted; those that fail are printed, with the step in which they were made. */
#ifndef CARDS_H
#define CARDS_H

#include "trial.h"

#define CARD_WORDS 511 /* the card takes no copy that ends at its buffer's last byte */

struct netconf_layout;

/* The step that is tried, and what a step is called. */
extern unsigned step;
extern const char *step_name;

/* What a card's buffer should have, word by word. */
extern uint64_t held[][CARD_WORDS + 1];

/* Counts a comparison; returns whether it failed and is to be shown. */
int differs(int is_same);

/* Ends the trial where a planted fault was found: one is enough. */
void end_of_comparison(void);

/* Ends the trial: it says how many comparisons passed and failed. */
void finish(void);

/* Ends the trial where it cannot go on. */
void give_up(const char *what);

/* Finds the pieces of memory where the layout says that the processor has them. */
void find_memory(const struct netconf_layout *layout);

/* A word of memory, and what it should have. */
volatile uint64_t *memory_at(uint64_t address);
uint64_t *shadow_at(uint64_t address);

/* Gives each word of memory a new value; compares all memory with what it should have. */
void fill_memory(void);
void compare_memory(const char *after);

/* Finds the cards where the description has them, and lets them read, write and send messages. */
void find_cards(const struct card *described, unsigned count);

/* Has a card copy bytes between its buffer, from a word on, and its addresses. `copy` waits until it has. */
void start_copy(unsigned card, int is_write, uint64_t address, unsigned word, unsigned bytes);
void await_copy(unsigned card);
void copy(unsigned card, int is_write, uint64_t address, unsigned word, unsigned bytes);

/* Fills a card's buffer from the page that it may read. */
void fill_card(unsigned card, const struct pages *pages);

/* Tries each card's message with a handle between the words of its record: it arrives as in one of two states, or not at all. */
void try_handle(unsigned handle, const struct state *last, const struct state *next);

/* Tries the messages of a state; its accesses that are denied by half, or all others; or both. Accesses for which nothing is
 * forgotten come last, so that the IOMMU knows each page that a card may access when the next tables are written. */
void try_messages(const struct state *state);
void try_cards(const struct state *state, int is_half);
void try_state(const struct state *state);

#endif
