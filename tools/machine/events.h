/* Performs events of the library on VT-d. An event is a word of one of netconf's own tables. What each agent reaches by all
 * tables is then written as second-level entries, and as records of interrupts. */
#ifndef EVENTS_H
#define EVENTS_H

#include <stdint.h>

struct netconf_layout;

/* The layout of the description. */
extern const struct netconf_layout *const events_layout;

/* NETCONF_MAKE, NETCONF_WRITE_WORD and NETCONF_FENCE of the library. Each returns 0, or 1 where the event is none of the layout's
 * units or the hardware does not do it. */
int events_make(uint32_t node, uint32_t words);
int events_write(uint32_t node, uint32_t word, uint64_t value);
int events_fence(void);

#endif
