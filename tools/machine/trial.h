/* What the trial expects: `run` writes it to data.h, from replies to `lookup`. */
#ifndef TRIAL_H
#define TRIAL_H

#include <stddef.h>
#include <stdint.h>

#define NOWHERE UINT64_MAX

/* One access of a card: the eight bytes at `address` come to the processor's address `first`, or NOWHERE; where `is_two`, the
 * access has eight bytes more, which lie in the next page and come to `second`. `is_half` says that a page which is denied
 * may be accessed otherwise. */
struct probe {
    uint64_t address, first, second;
    uint8_t card, is_write, is_two, is_half;
};

/* One message of a card, with a handle: it arrives at a processor as this vector, or nowhere, if the vector is 0. */
struct message {
    uint32_t handle;
    uint8_t card, processor, vector;
};

/* A page that a card may read, and one that it may write, by its addresses, and the memory that they come to; or NOWHERE. */
struct pages {
    uint64_t in, in_memory, out, out_memory;
};

/* What is expected of all cards at one time. `pages` has an item for each card. */
struct state {
    const struct probe *probes;
    const struct message *messages;
    const struct pages *pages;
    size_t probe_count, message_count;
};

/* A dump, what is expected right after the fence while it is loaded, and what once it is loaded. */
struct step {
    const unsigned char *image;
    size_t size;
    struct state at_fence, loaded;
};

/* A card: its name and its place on bus 0. */
struct card {
    const char *name;
    uint8_t device, function;
};

#endif
