/* A driver for the Intel IOMMU (VT-d) that takes its tables from images: second-level tables for what devices read and
 * write, and the table of interrupts. */
#ifndef VTD_H
#define VTD_H

#include <stdint.h>

struct netconf_image;
struct netconf_layout;

/* Turns translation and remapping on with empty tables, so that no device comes to anything. Returns 0, or 1 if this I/O
 * MMU lacks something that the driver needs. */
int vtd_start(void);

/* Brings the machine from one image to the next; `before` is NULL at first. Returns 0, or 1 if the layout or the hardware
 * cannot say the next image: then nothing more is written. */
int vtd_load(const struct netconf_image *before, const struct netconf_image *next);

/* The same without a fence, where fences come as events of their own. */
int vtd_write(const struct netconf_image *before, const struct netconf_image *next);

/* Whether something was cleared since the IOMMU forgot what it keeps of its tables. */
int vtd_is_stale(void);

/* Called, if set, after each word that is written to a record of the table of interrupts; and after the fence. */
extern void (*vtd_word_written)(unsigned handle);
extern void (*vtd_fence_passed)(void);

/* The part of a note that begins with a word; the parts stand between commas. Returns what follows the word, as `0:3.0, x` of
 * `a/path, pci 0:3.0, x` for `pci`, or NULL if there is none. */
const char *vtd_note_part(const char *note, const char *word);

/* The handle that a device puts into a message for a line of an agent, or UINT32_MAX if the line is none. */
uint32_t vtd_handle_of(const struct netconf_layout *layout, unsigned agent, uint64_t line);

/* Has the IOMMU forget all that it keeps of its tables. Returns 0, or 1 if it does not come to that. */
int vtd_forget(void);

/* The last fault that the IOMMU recorded: returns 0 if there is none. `*function` is 8 times the device and the
 * function, `*page` the page of the address, and `*is_write` the access. It is forgotten. */
int vtd_fault(unsigned *function, uint64_t *page, int *is_write);

#endif
