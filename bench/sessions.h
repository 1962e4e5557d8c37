/* SPDX-License-Identifier: Apache-2.0 */
/* The ways of granting a page that bench/sessions measures side by side. */
#ifndef SESSIONS_H
#define SESSIONS_H

#include <stdint.h>

#define PAGE  12
#define SLOTS 8192u
#define MOST  4096u /* live grants */

/*
 * struct way - one way of giving a card the pages of a memory through a unit of SLOTS slots
 *
 * `begin` makes it for a board of so many agents. `map` gives the card the page of the memory at `base` under an id, and leaves
 * the card's address of it; `unmap` takes it back. Each writes the words of the unit that change. They answer 0 where they are
 * done.
 */
struct way {
    const char *name;
    int (*begin)(unsigned agents);
    int (*map)(uint32_t id, uint64_t base, uint64_t *address);
    int (*unmap)(uint32_t id, uint64_t address);
};

extern const struct way by_library, by_hand, by_tree;

#endif
