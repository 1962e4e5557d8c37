/* SPDX-License-Identifier: Apache-2.0 */
/*
 * Reads images of tables that netconf makes, and brings a machine from one image to the next.
 *
 * An image (docs/image.md) is what `dump` of `netconf run` prints, as bytes. What it leaves out is a layout:
 * `netconf-layout --c` makes it of the description, as constants of the types below. One source file of a program has
 *
 *     #define NETCONF_IMAGE_IMPLEMENTATION
 *     #include "netconf_image.h"
 *
 * and so holds the functions; all others include the header alone. A program of one file, or one whose compiler should
 * see each function where it is called, defines NETCONF_API as `static inline` and NETCONF_IMAGE_IMPLEMENTATION before
 * each #include.
 *
 *     struct netconf_image image;
 *     struct netconf_problem problem = netconf_open(&image, &board, bytes, size);
 *     if (problem.fault != NETCONF_FAULT_NONE) refuse(netconf_fault_text(problem.fault), problem.place);
 *     netconf_change_pages(NULL, &image, sizes, &device);
 *
 * The code is C99 and C++11. It allocates nothing and keeps nothing: what it is given stays the caller's. It calls no
 * function of a library, and no compiler that is tested makes it call memcpy or memset (tools/tests/loader).
 *
 * Two ways lead from an image to a machine. Hardware with a table for each unit takes slots: netconf_change_slots, or
 * netconf_change_words if its words are those of the image. Hardware with a table for each device takes pages of that
 * device's addresses: netconf_change_pages, which takes care of windows that end within a slot and of several units in
 * a row.
 *
 * The premises are that the hardware reads a record whole, and that a fence returns when no lookup that began before it
 * is in flight and nothing that units or devices cached before it is used.
 *
 * The parts of this header: types; reading an image; changing a machine; low-level functions, which a loader probably
 * does not need; and the functions themselves.
 */
#ifndef NETCONF_IMAGE_H
#define NETCONF_IMAGE_H

#include <stddef.h>
#include <stdint.h>

/** The version of this interface. It rises when a caller has to change: 1 was that of netconf 0.2.0. */
#define NETCONF_HEADER_VERSION 2

/** The most units of a net. */
#define NETCONF_MOST_UNITS 64

/** The last address of a node: 2^56 - 1. */
#define NETCONF_LAST_ADDRESS 0xffffffffffffffULL

/** What stands before each function. */
#ifndef NETCONF_API
#define NETCONF_API
#endif

#ifdef __cplusplus
extern "C" {
#endif

/* ---- types: the layout, which netconf-layout makes ---- */

/** The kinds of units: what their words hold. */
enum netconf_kind {
    NETCONF_KIND_PAGES,
    NETCONF_KIND_REMAP,
    NETCONF_KIND_VECTORS,
    NETCONF_KIND_RADIX
};

/**
 * struct netconf_window - addresses of an agent or a port that come to a unit
 * @first: the first address
 * @last: the last address
 * @input: the input of the unit to which `first` comes; the next address comes to the next input, and so on
 * @unit: the unit, counted from 0 in the order of the layout
 */
struct netconf_window {
    uint64_t first, last, input;
    uint16_t unit;
};

/**
 * struct netconf_place - addresses of a node that accepts them, and where a viewer has them
 * @first: the first address of the node
 * @last: the last address of the node
 * @address: the viewer's address of `first`
 * @node: the number of the node
 */
struct netconf_place {
    uint64_t first, last, address;
    uint16_t node;
};

/**
 * struct netconf_view - what an agent, or the node at a port, sees where no table is written
 * @name: the name of the node
 * @note: what the comments on the node in the description say, or the empty string
 * @windows: the windows, by ascending addresses; no address is in two
 * @places: the places
 * @window_count: how many windows there are
 * @place_count: how many places there are
 * @node: the number of the node
 */
struct netconf_view {
    const char *name, *note;
    const struct netconf_window *windows;
    const struct netconf_place *places;
    uint32_t window_count, place_count;
    uint16_t node;
};

/**
 * struct netconf_unit - a unit of translation and its shape
 * @name: the name of the node
 * @note: what the comments on the node in the description say, or the empty string
 * @ports: the nodes to which the unit sends
 * @kind: what its words hold
 * @slots: how many slots it has, from 1 to 262,144
 * @node: the number of the node
 * @page: the power of two of a slot's addresses, from 0 to 40
 * @reach: the power of two at which its outputs end, from `page` to 56
 * @port_count: how many ports it has, from 1 to 8
 */
struct netconf_unit {
    const char *name, *note;
    const struct netconf_view *ports;
    enum netconf_kind kind;
    uint32_t slots;
    uint16_t node;
    uint8_t page, reach, port_count;
};

/**
 * struct netconf_layout - the units and the agents of a net, each in the order of their nodes
 * @units: the units
 * @agents: the agents
 * @unit_count: how many units there are, at most 64
 * @agent_count: how many agents there are, at most 64
 */
struct netconf_layout {
    const struct netconf_unit *units;
    const struct netconf_view *agents;
    uint16_t unit_count, agent_count;
};

/* ---- types: images ---- */

/**
 * struct netconf_image - an image that was opened
 * @layout: the layout for which it was opened
 * @bytes: its bytes
 * @words_at: for each unit the byte at which its words begin
 * @version: the version of the image, 1 or 2
 */
struct netconf_image {
    const struct netconf_layout *layout;
    const unsigned char *bytes;
    size_t words_at[NETCONF_MOST_UNITS];
    unsigned version;
};

/** What is wrong with bytes as an image. netconf_fault_text has each in words. */
enum netconf_fault {
    NETCONF_FAULT_NONE,     /* nothing: the image is opened */
    NETCONF_FAULT_SHORT,    /* the bytes end inside a field; the place is how many there are */
    NETCONF_FAULT_HEADER,   /* the mark, the version or the number of units; the place is its byte: 0, 4 or 6 */
    NETCONF_FAULT_SHAPE,    /* the head of a unit is not that of the layout; the place is the unit */
    NETCONF_FAULT_TRAILING, /* bytes follow the last unit; the place is the first of them */
    NETCONF_FAULT_LAYOUT /* the layout has more than 64 units, or a unit of an unknown shape; the place is the unit */
};

/**
 * struct netconf_problem - a fault and its place
 * @fault: the fault
 * @place: where it is, as the fault says; 0 if there is none
 */
struct netconf_problem {
    enum netconf_fault fault;
    uint64_t place;
};

/**
 * struct netconf_record - the record of a slot
 * @output: the address to which the first address of the slot goes
 * @port: the port, counted from 0
 * @may_read: 1 if reads pass, or 0; one of the two rights at least is 1
 * @may_write: 1 if writes pass, or 0
 */
struct netconf_record {
    uint64_t output;
    uint8_t port, may_read, may_write;
};

/** The accesses of an agent. */
enum netconf_access {
    NETCONF_ACCESS_READ,
    NETCONF_ACCESS_WRITE
};

/** What becomes of an address. */
enum netconf_answer {
    NETCONF_ANSWER_NOTHING, /* it stops at a unit */
    NETCONF_ANSWER_FIXED,   /* it passes no unit: the net without tables says what it comes to */
    NETCONF_ANSWER_OUT      /* it leaves the last of the units on its way */
};

/**
 * struct netconf_exit - where an address leaves the last unit on its way
 * @output: the address of the port's node
 * @unit: the unit
 * @port: the port, counted from 0
 */
struct netconf_exit {
    uint64_t output;
    uint16_t unit;
    uint8_t port;
};

/**
 * What a page of the hardware is to an agent. It is uneven if a window or a slot ends within it, if rights differ, or
 * if its outputs are no page. A loader leaves it out, so that the device sees less than the tables say.
 */
enum netconf_page_answer {
    NETCONF_PAGE_EMPTY, /* no address of the page comes through a unit */
    NETCONF_PAGE_WHOLE, /* all come through, side by side and with the same rights */
    NETCONF_PAGE_UNEVEN /* some come through, and no page of the hardware says it */
};

/**
 * struct netconf_page - adjacent addresses of an agent with one answer
 * @first: the first address
 * @last: the last address; what is empty or uneven may be any number of the smallest pages
 * @output: of a whole page, the address of the port's node to which `first` comes
 * @unit: of a whole page, the last unit on the way
 * @port: of a whole page, the port of that unit
 * @may_read: 1 if reads pass every unit on the way, or 0
 * @may_write: 1 if writes pass every unit on the way, or 0
 * @size: of a whole page, the power of two of its addresses
 * @answer: what the page is
 */
struct netconf_page {
    uint64_t first, last, output;
    uint16_t unit;
    uint8_t port, may_read, may_write, size;
    enum netconf_page_answer answer;
};

/* ---- reading an image ---- */

/**
 * netconf_open - opens the bytes of an image for a layout
 * @image: what is opened; it uses the layout and the bytes as long as it is used
 * @layout: the layout
 * @bytes: the bytes
 * @size: how many there are
 *
 * Every field is tested from the front on. An image with a problem must not be used.
 *
 * returns: the first field that is not as in an image of this net, or NETCONF_FAULT_NONE
 */
NETCONF_API struct netconf_problem netconf_open(struct netconf_image *image, const struct netconf_layout *layout,
                                                const void *bytes, size_t size);

/**
 * netconf_fault_text - a fault in words
 * @fault: the fault
 *
 * returns: a text in English without a full stop, never NULL
 */
NETCONF_API const char *netconf_fault_text(enum netconf_fault fault);

/**
 * netconf_record_at - reads the record of a slot
 * @image: the image
 * @unit: the unit
 * @slot: the slot
 * @record: becomes the record, if there is one
 *
 * Each rule of docs/image.md is applied: the gate, the bits that must be 0, the rights, the unit's ports and its reach,
 * and in version 1 that a record without both rights counts for nothing.
 *
 * returns: 1, or 0 if the slot holds no record or is not there
 */
NETCONF_API int netconf_record_at(const struct netconf_image *image, unsigned unit, uint32_t slot,
                                  struct netconf_record *record);

/**
 * netconf_lookup - what becomes of an agent's address for an access
 * @image: the image
 * @agent: the agent, counted from 0 in the order of the layout
 * @address: the address
 * @access: the access
 * @found: becomes where the address leaves the last unit, if NETCONF_ANSWER_OUT is returned
 *
 * returns: the answer; NETCONF_ANSWER_NOTHING also for an agent that is not there and an address past the last
 */
NETCONF_API enum netconf_answer netconf_lookup(const struct netconf_image *image, unsigned agent, uint64_t address,
                                               enum netconf_access access, struct netconf_exit *found);

/**
 * netconf_next_page - the next page of an agent that is not empty
 * @image: the image, or NULL, which has no page
 * @agent: the agent
 * @from: the address from which on pages are looked for
 * @sizes: the pages of the hardware: bit n is set if it has pages of 2^n addresses
 * @page: becomes the page, if there is one
 *
 * returns: 1, or 0 if there is none
 */
NETCONF_API int netconf_next_page(const struct netconf_image *image, unsigned agent, uint64_t from, uint64_t sizes,
                                  struct netconf_page *page);

/**
 * netconf_place_at - a place of a view that has an address
 * @view: the view
 * @address: the viewer's address
 * @from: the place from which on places are looked at, counted from 0
 *
 * An address that has several names has a place for each.
 *
 * returns: the place, or NULL if there is none
 */
NETCONF_API const struct netconf_place *netconf_place_at(const struct netconf_view *view, uint64_t address,
                                                         uint32_t from);

/**
 * netconf_address_of - the address at which a view has an address of a node
 * @view: the view
 * @node: the number of the node
 * @address: the address of the node
 * @found: becomes the viewer's address, the first if there are several
 *
 * returns: 1, or 0 if the view does not have it
 */
NETCONF_API int netconf_address_of(const struct netconf_view *view, unsigned node, uint64_t address, uint64_t *found);

/* ---- changing a machine ----
 *
 * Each function below calls the loader's own functions. It stops at the first that returns other than 0, and returns
 * that value. First it clears, in every unit, what the next image does not have or has otherwise; then it calls the
 * fence, if it cleared anything; then it puts what is new. So at each moment an address comes to what it comes to by
 * the image before or by the next one, or to nothing, in whatever order the units stand. The memory of a buffer that
 * was cleared is the driver's again after the fence and not before; a driver that clears and puts nothing gets that
 * fence too.
 */

/**
 * struct netconf_slot_device - a device with tables of slots
 * @context: what each function is given first
 * @put: writes a record into a slot
 * @clear: empties a slot
 * @fence: returns when no lookup that began before is in flight
 */
struct netconf_slot_device {
    void *context;
    int (*put)(void *context, unsigned unit, uint32_t slot, const struct netconf_record *record);
    int (*clear)(void *context, unsigned unit, uint32_t slot);
    int (*fence)(void *context);
};

/**
 * netconf_change_slots - brings a device with tables of slots from one image to the next
 * @before: the image that the machine has, or NULL if all its slots are empty
 * @next: the image that it gets, of the same layout
 * @device: the device
 *
 * returns: 0, or what a function of the device returned
 */
NETCONF_API int netconf_change_slots(const struct netconf_image *before, const struct netconf_image *next,
                                     const struct netconf_slot_device *device);

/**
 * struct netconf_word_device - a device that has the words of an image
 * @context: what each function is given first
 * @write: writes a word: the slot times the words of a record, and the word of the slot. The order in which the halves
 *         of a word are written on a bus of 32 bits is the function's own: see docs/image.md
 * @fence: returns when no lookup that began before is in flight
 */
struct netconf_word_device {
    void *context;
    int (*write)(void *context, unsigned unit, uint32_t word, uint64_t value);
    int (*fence)(void *context);
};

/**
 * netconf_change_words - brings a device with the words of an image from one image to the next
 * @before: the image that the machine has, or NULL if all its words are 0
 * @next: the image that it gets, of the same layout
 * @device: the device
 *
 * A slot is cleared with its gate word, the last, first and then the others in ascending order; it is written in
 * ascending order, so that the gate comes last.
 *
 * returns: 0, or what a function of the device returned
 */
NETCONF_API int netconf_change_words(const struct netconf_image *before, const struct netconf_image *next,
                                     const struct netconf_word_device *device);

/**
 * struct netconf_page_device - a device with a table for each agent
 * @context: what each function is given first
 * @map: writes a page
 * @unmap: takes a page away
 * @fence: returns when no lookup that began before is in flight
 * @uneven: is told each page that no page of the hardware says; it may be NULL
 */
struct netconf_page_device {
    void *context;
    int (*map)(void *context, unsigned agent, const struct netconf_page *page);
    int (*unmap)(void *context, unsigned agent, const struct netconf_page *page);
    int (*fence)(void *context);
    int (*uneven)(void *context, unsigned agent, const struct netconf_page *page);
};

/**
 * netconf_change_pages - brings a device with a table for each agent from one image to the next
 * @before: the image that the machine has, or NULL if its tables are empty
 * @next: the image that it gets, of the same layout
 * @sizes: for each agent of the layout the pages of the hardware that serves it, or 0 for an agent that is left out. A
 *         line of an agent that comes to units of kind `vectors` is a page of one address: bit 0
 * @device: the device
 *
 * A page is the largest of the hardware that lies within addresses that take the same slots, at an input and an output
 * that are its multiples. The smallest pages may consist of several slots, if these continue one another with the same
 * rights.
 *
 * returns: 0, or what a function of the device returned
 */
NETCONF_API int netconf_change_pages(const struct netconf_image *before, const struct netconf_image *next,
                                     const uint64_t *sizes, const struct netconf_page_device *device);

/* ---- low-level functions: a loader probably does not need these ---- */

/**
 * struct netconf_stretch - adjacent addresses of an agent that take the same slots of the same units
 * @first: the first address
 * @last: the last address
 * @output: if the answer is NETCONF_ANSWER_OUT, the address of the port's node to which `first` comes
 * @unit: the last unit on the way
 * @port: the port of that unit
 * @may_read: 1 if reads pass every unit on the way, or 0
 * @may_write: 1 if writes pass every unit on the way, or 0
 * @answer: what becomes of them
 */
struct netconf_stretch {
    uint64_t first, last, output;
    uint16_t unit;
    uint8_t port, may_read, may_write;
    enum netconf_answer answer;
};

/**
 * netconf_words_of - how many words a record of a unit has
 * @unit: the unit
 *
 * returns: 1 or 2, or 0 if the kind is unknown
 */
NETCONF_API unsigned netconf_words_of(const struct netconf_unit *unit);

/**
 * netconf_raw_word - a word of a slot as it stands in an image
 * @image: the image
 * @unit: a unit of its layout
 * @slot: a slot of the unit
 * @word: a word of the slot
 *
 * returns: the word; an argument that is not there reads outside of the image
 */
NETCONF_API uint64_t netconf_raw_word(const struct netconf_image *image, unsigned unit, uint32_t slot, unsigned word);

/**
 * netconf_word - a word of a slot as a machine is to have it
 * @image: the image, or NULL, whose words are 0
 * @unit: a unit of its layout
 * @slot: a slot of the unit
 * @word: a word of the slot
 *
 * returns: the word; 0 in an image of version 1 if the record lacks a right
 */
NETCONF_API uint64_t netconf_word(const struct netconf_image *image, unsigned unit, uint32_t slot, unsigned word);

/**
 * netconf_window_at - the window of a view that has an address
 * @view: the view
 * @address: the address
 * @from: becomes the first address of that window, or of the gap between windows in which the address is
 * @to: becomes the last address of it
 *
 * returns: the window, or NULL in a gap
 */
NETCONF_API const struct netconf_window *netconf_window_at(const struct netconf_view *view, uint64_t address,
                                                           uint64_t *from, uint64_t *to);

/**
 * netconf_stretch_at - what becomes of an agent's address, and the adjacent addresses of which the same holds
 * @image: the image
 * @agent: the agent
 * @address: the address
 * @found: becomes the stretch
 *
 * A stretch ends at the bounds of windows and of slots, so that two stretches side by side may continue one another. A
 * row of more units than a net has stops. An agent that is not there, and an address past the last, come to nothing.
 */
NETCONF_API void netconf_stretch_at(const struct netconf_image *image, unsigned agent, uint64_t address,
                                    struct netconf_stretch *found);

/**
 * netconf_page_at - the page of an agent that has an address
 * @image: the image
 * @agent: the agent
 * @address: the address
 * @sizes: the pages of the hardware: bit n is set if it has pages of 2^n addresses
 * @page: becomes the page
 */
NETCONF_API void netconf_page_at(const struct netconf_image *image, unsigned agent, uint64_t address, uint64_t sizes,
                                 struct netconf_page *page);

#ifdef __cplusplus
}
#endif

#endif

/* ---- the functions ---- */

#if defined(NETCONF_IMAGE_IMPLEMENTATION) && !defined(NETCONF_IMAGE_IMPLEMENTED)
#define NETCONF_IMAGE_IMPLEMENTED

#ifdef __cplusplus
extern "C" {
#endif

/* The number of little-endian bytes from a place on. */
static inline uint64_t netconf_number_(const unsigned char *bytes, unsigned count)
{
    uint64_t value = 0;
    while (count > 0) {
        count--;
        value = value << 8 | bytes[count];
    }
    return value;
}

NETCONF_API unsigned netconf_words_of(const struct netconf_unit *unit)
{
    switch (unit->kind) {
    case NETCONF_KIND_PAGES:
    case NETCONF_KIND_REMAP:
    case NETCONF_KIND_RADIX:
        return 1;
    case NETCONF_KIND_VECTORS:
        return 2;
    default:
        return 0;
    }
}

static inline struct netconf_problem netconf_problem_(enum netconf_fault fault, uint64_t place)
{
    struct netconf_problem problem;
    problem.fault = fault;
    problem.place = place;
    return problem;
}

NETCONF_API const char *netconf_fault_text(enum netconf_fault fault)
{
    switch (fault) {
    case NETCONF_FAULT_NONE:
        return "no fault";
    case NETCONF_FAULT_SHORT:
        return "the image ends inside a field";
    case NETCONF_FAULT_HEADER:
        return "the mark, the version or the number of units is not that of an image of this net";
    case NETCONF_FAULT_SHAPE:
        return "the head of a unit is not that of the layout";
    case NETCONF_FAULT_TRAILING:
        return "bytes follow the last unit";
    case NETCONF_FAULT_LAYOUT:
        return "the layout has too many units, or a unit of an unknown shape";
    default:
        return "an unknown fault";
    }
}

/* Whether a unit has a shape that this header reads. */
static inline int netconf_is_known_(const struct netconf_unit *unit)
{
    return netconf_words_of(unit) != 0 && unit->page <= 40 && unit->page <= unit->reach && unit->reach <= 56
           && unit->slots >= 1 && unit->slots <= 262144 && unit->port_count >= 1 && unit->port_count <= 8;
}

/* The first problem of a layout, and of the eight bytes at the beginning of an image. */
static inline struct netconf_problem netconf_open_head_(struct netconf_image *image, size_t size)
{
    static const unsigned char mark[4] = {0x44, 0x4e, 0x49, 0x4d};
    const struct netconf_layout *layout = image->layout;
    unsigned n;
    if (layout->unit_count > NETCONF_MOST_UNITS) return netconf_problem_(NETCONF_FAULT_LAYOUT, NETCONF_MOST_UNITS);
    for (n = 0; n < layout->unit_count; n++)
        if (!netconf_is_known_(&layout->units[n])) return netconf_problem_(NETCONF_FAULT_LAYOUT, n);
    if (size < 4) return netconf_problem_(NETCONF_FAULT_SHORT, size);
    for (n = 0; n < 4; n++)
        if (image->bytes[n] != mark[n]) return netconf_problem_(NETCONF_FAULT_HEADER, 0);
    if (size < 6) return netconf_problem_(NETCONF_FAULT_SHORT, size);
    image->version = (unsigned)netconf_number_(image->bytes + 4, 2);
    if (image->version != 1 && image->version != 2) return netconf_problem_(NETCONF_FAULT_HEADER, 4);
    if (size < 8) return netconf_problem_(NETCONF_FAULT_SHORT, size);
    if (netconf_number_(image->bytes + 6, 2) != layout->unit_count) return netconf_problem_(NETCONF_FAULT_HEADER, 6);
    return netconf_problem_(NETCONF_FAULT_NONE, 0);
}

NETCONF_API struct netconf_problem netconf_open(struct netconf_image *image, const struct netconf_layout *layout,
                                                const void *bytes, size_t size)
{
    struct netconf_problem problem;
    const unsigned char *at = (const unsigned char *)bytes;
    size_t used = 8;
    unsigned unit;
    image->layout = layout;
    image->bytes = at;
    image->version = 0;
    problem = netconf_open_head_(image, size);
    if (problem.fault != NETCONF_FAULT_NONE) return problem;
    for (unit = 0; unit < layout->unit_count; unit++) {
        const struct netconf_unit *shape = &layout->units[unit];
        unsigned words = netconf_words_of(shape);
        if (size - used < 8) return netconf_problem_(NETCONF_FAULT_SHORT, size);
        if (netconf_number_(at + used, 2) != shape->node || at[used + 2] != words || at[used + 3] != 0
            || netconf_number_(at + used + 4, 4) != shape->slots)
            return netconf_problem_(NETCONF_FAULT_SHAPE, unit);
        used += 8;
        if ((size - used) / 8 < (size_t)words * shape->slots) return netconf_problem_(NETCONF_FAULT_SHORT, size);
        image->words_at[unit] = used;
        used += (size_t)8 * words * shape->slots;
    }
    return used < size ? netconf_problem_(NETCONF_FAULT_TRAILING, used) : problem;
}

NETCONF_API uint64_t netconf_raw_word(const struct netconf_image *image, unsigned unit, uint32_t slot, unsigned word)
{
    unsigned words = netconf_words_of(&image->layout->units[unit]);
    return netconf_number_(image->bytes + image->words_at[unit] + 8 * ((size_t)slot * words + word), 8);
}

/* The bits of a gate word that must be 0. */
static inline uint64_t netconf_clear_bits_(enum netconf_kind kind)
{
    switch (kind) {
    case NETCONF_KIND_PAGES:
        return 0xce;
    case NETCONF_KIND_REMAP:
        return 0xc0;
    case NETCONF_KIND_RADIX:
        return 0xff00000000000fc0ULL;
    case NETCONF_KIND_VECTORS:
    default:
        return ~0x3fULL;
    }
}

/* Reads the record of a slot as an image of a version has it. */
static inline int netconf_record_in_(const struct netconf_image *image, unsigned version, unsigned unit, uint32_t slot,
                                     struct netconf_record *record)
{
    const struct netconf_unit *shape;
    uint64_t gate, page;
    unsigned words;
    if (unit >= image->layout->unit_count || slot >= image->layout->units[unit].slots) return 0;
    shape = &image->layout->units[unit];
    words = netconf_words_of(shape);
    gate = netconf_raw_word(image, unit, slot, words - 1);
    if (!(gate & 1) || (gate & netconf_clear_bits_(shape->kind))) return 0;
    page = words == 2 ? netconf_raw_word(image, unit, slot, 0) : gate >> (shape->kind == NETCONF_KIND_RADIX ? 12 : 8);
    record->port = (uint8_t)(gate >> 1 & 7);
    record->may_read = (uint8_t)(~gate >> 4 & 1);
    record->may_write = (uint8_t)(~gate >> 5 & 1);
    if (!record->may_read && !record->may_write) return 0;
    if (version == 1 && (!record->may_read || !record->may_write)) return 0;
    if (record->port >= shape->port_count || page >> (shape->reach - shape->page)) return 0;
    record->output = page << shape->page;
    return 1;
}

NETCONF_API int netconf_record_at(const struct netconf_image *image, unsigned unit, uint32_t slot,
                                  struct netconf_record *record)
{
    return netconf_record_in_(image, image->version, unit, slot, record);
}

NETCONF_API const struct netconf_window *netconf_window_at(const struct netconf_view *view, uint64_t address,
                                                           uint64_t *from, uint64_t *to)
{
    uint32_t low = 0, high = view->window_count;
    while (low < high) {
        uint32_t middle = low + (high - low) / 2;
        if (view->windows[middle].last < address) low = middle + 1;
        else high = middle;
    }
    if (low < view->window_count && view->windows[low].first <= address) {
        *from = view->windows[low].first;
        *to = view->windows[low].last;
        return &view->windows[low];
    }
    *from = low > 0 ? view->windows[low - 1].last + 1 : 0;
    *to = low < view->window_count ? view->windows[low].first - 1 : UINT64_MAX;
    return NULL;
}

/* Narrows a stretch round `address` to the addresses that are within `from` to `to` where `address` is at `at`. */
static inline void netconf_narrow_(struct netconf_stretch *stretch, uint64_t address, uint64_t at, uint64_t from,
                                   uint64_t to)
{
    if (address - stretch->first > at - from) stretch->first = address - (at - from);
    if (stretch->last - address > to - at) stretch->last = address + (to - at);
}

/* Makes a stretch of addresses that come to nothing. */
static inline void netconf_clear_stretch_(struct netconf_stretch *stretch, uint64_t first, uint64_t last)
{
    stretch->first = first;
    stretch->last = last;
    stretch->output = 0;
    stretch->unit = 0;
    stretch->port = stretch->may_read = stretch->may_write = 0;
    stretch->answer = NETCONF_ANSWER_NOTHING;
}

NETCONF_API void netconf_stretch_at(const struct netconf_image *image, unsigned agent, uint64_t address,
                                    struct netconf_stretch *found)
{
    const struct netconf_layout *layout = image->layout;
    const struct netconf_view *view;
    uint64_t at = address, from, to;
    unsigned passed = 0, read = 1, write = 1;
    netconf_clear_stretch_(found, address > NETCONF_LAST_ADDRESS ? NETCONF_LAST_ADDRESS + 1 : 0, UINT64_MAX);
    if (agent >= layout->agent_count) found->first = 0;
    if (agent >= layout->agent_count || address > NETCONF_LAST_ADDRESS) return;
    found->last = NETCONF_LAST_ADDRESS;
    view = &layout->agents[agent];
    while (passed <= layout->unit_count) {
        const struct netconf_window *window = netconf_window_at(view, at, &from, &to);
        const struct netconf_unit *shape;
        struct netconf_record record;
        uint64_t input, within;
        netconf_narrow_(found, address, at, from, to);
        if (window == NULL) {
            found->answer = passed == 0 ? NETCONF_ANSWER_FIXED : NETCONF_ANSWER_OUT;
            found->output = at - (address - found->first);
            found->may_read = (uint8_t)(passed != 0 && read);
            found->may_write = (uint8_t)(passed != 0 && write);
            return;
        }
        if (window->unit >= layout->unit_count) return;
        shape = &layout->units[window->unit];
        input = window->input + (at - window->first);
        within = input & (((uint64_t)1 << shape->page) - 1);
        netconf_narrow_(found, address, input, input - within, input - within + (((uint64_t)1 << shape->page) - 1));
        if (input >> shape->page >= shape->slots) return;
        if (!netconf_record_at(image, window->unit, (uint32_t)(input >> shape->page), &record)) return;
        read &= record.may_read;
        write &= record.may_write;
        if (!read && !write) return;
        found->unit = window->unit;
        found->port = record.port;
        at = record.output + within;
        view = &shape->ports[record.port];
        passed++;
    }
}

NETCONF_API enum netconf_answer netconf_lookup(const struct netconf_image *image, unsigned agent, uint64_t address,
                                               enum netconf_access access, struct netconf_exit *found)
{
    struct netconf_stretch stretch;
    netconf_stretch_at(image, agent, address, &stretch);
    if (stretch.answer != NETCONF_ANSWER_OUT) return stretch.answer;
    if (!(access == NETCONF_ACCESS_READ ? stretch.may_read : stretch.may_write)) return NETCONF_ANSWER_NOTHING;
    found->unit = stretch.unit;
    found->port = stretch.port;
    found->output = stretch.output + (address - stretch.first);
    return NETCONF_ANSWER_OUT;
}

NETCONF_API const struct netconf_place *netconf_place_at(const struct netconf_view *view, uint64_t address,
                                                         uint32_t from)
{
    for (; from < view->place_count; from++) {
        const struct netconf_place *place = &view->places[from];
        if (place->address <= address && address - place->address <= place->last - place->first) return place;
    }
    return NULL;
}

NETCONF_API int netconf_address_of(const struct netconf_view *view, unsigned node, uint64_t address, uint64_t *found)
{
    uint32_t n;
    for (n = 0; n < view->place_count; n++) {
        const struct netconf_place *place = &view->places[n];
        if (place->node == node && place->first <= address && address <= place->last) {
            *found = place->address + (address - place->first);
            return 1;
        }
    }
    return 0;
}

/* Reads the record of a slot, or one of zeros if there is none; an image that is NULL has none. */
static inline int netconf_record_or_zeros_(const struct netconf_image *image, unsigned unit, uint32_t slot,
                                           struct netconf_record *record)
{
    if (image != NULL && netconf_record_at(image, unit, slot, record)) return 1;
    record->output = 0;
    record->port = record->may_read = record->may_write = 0;
    return 0;
}

/* Whether a slot holds the same record in two images, or none in both. An image that is NULL holds none. */
static inline int netconf_is_same_(const struct netconf_image *one, const struct netconf_image *other, unsigned unit,
                                   uint32_t slot)
{
    struct netconf_record a, b;
    int has_a = netconf_record_or_zeros_(one, unit, slot, &a), has_b = netconf_record_or_zeros_(other, unit, slot, &b);
    return has_a == has_b && a.output == b.output && a.port == b.port && a.may_read == b.may_read
           && a.may_write == b.may_write;
}

NETCONF_API int netconf_change_slots(const struct netconf_image *before, const struct netconf_image *next,
                                     const struct netconf_slot_device *device)
{
    const struct netconf_layout *layout = next->layout;
    struct netconf_record record;
    unsigned unit;
    uint32_t slot;
    int stopped, cleared = 0;
    for (unit = 0; before != NULL && unit < layout->unit_count; unit++)
        for (slot = 0; slot < layout->units[unit].slots; slot++)
            if (netconf_record_at(before, unit, slot, &record) && !netconf_is_same_(before, next, unit, slot)) {
                if ((stopped = device->clear(device->context, unit, slot)) != 0) return stopped;
                cleared = 1;
            }
    if (cleared && (stopped = device->fence(device->context)) != 0) return stopped;
    for (unit = 0; unit < layout->unit_count; unit++)
        for (slot = 0; slot < layout->units[unit].slots; slot++)
            if (netconf_record_at(next, unit, slot, &record) && !netconf_is_same_(before, next, unit, slot))
                if ((stopped = device->put(device->context, unit, slot, &record)) != 0) return stopped;
    return 0;
}

NETCONF_API uint64_t netconf_word(const struct netconf_image *image, unsigned unit, uint32_t slot, unsigned word)
{
    struct netconf_record record;
    if (image == NULL) return 0;
    if (image->version == 1 && !netconf_record_at(image, unit, slot, &record)
        && netconf_record_in_(image, 2, unit, slot, &record))
        return 0;
    return netconf_raw_word(image, unit, slot, word);
}

/* Whether the words of a slot are the same in two images. */
static inline int netconf_has_same_words_(const struct netconf_image *one, const struct netconf_image *other,
                                          unsigned unit, uint32_t slot)
{
    unsigned word, words = netconf_words_of(&other->layout->units[unit]);
    for (word = 0; word < words; word++)
        if (netconf_word(one, unit, slot, word) != netconf_word(other, unit, slot, word)) return 0;
    return 1;
}

/* Whether all words of a slot are 0. */
static inline int netconf_is_empty_(const struct netconf_image *image, unsigned unit, uint32_t slot)
{
    unsigned word, words;
    if (image == NULL) return 1;
    words = netconf_words_of(&image->layout->units[unit]);
    for (word = 0; word < words; word++)
        if (netconf_word(image, unit, slot, word) != 0) return 0;
    return 1;
}

/* Clears the words of a slot, the gate word first. */
static inline int netconf_clear_words_(const struct netconf_word_device *device, unsigned unit, uint32_t slot,
                                       unsigned words)
{
    unsigned word;
    int stopped = device->write(device->context, unit, slot * words + words - 1, 0);
    for (word = 0; stopped == 0 && word + 1 < words; word++)
        stopped = device->write(device->context, unit, slot * words + word, 0);
    return stopped;
}

/* Writes the words of a slot, the gate word last. */
static inline int netconf_write_words_(const struct netconf_word_device *device, const struct netconf_image *next,
                                       unsigned unit, uint32_t slot, unsigned words)
{
    unsigned word;
    int stopped = 0;
    for (word = 0; stopped == 0 && word < words; word++)
        stopped = device->write(device->context, unit, slot * words + word, netconf_word(next, unit, slot, word));
    return stopped;
}

NETCONF_API int netconf_change_words(const struct netconf_image *before, const struct netconf_image *next,
                                     const struct netconf_word_device *device)
{
    const struct netconf_layout *layout = next->layout;
    unsigned unit, words;
    uint32_t slot;
    int stopped, cleared = 0;
    for (unit = 0; before != NULL && unit < layout->unit_count; unit++) {
        words = netconf_words_of(&layout->units[unit]);
        for (slot = 0; slot < layout->units[unit].slots; slot++) {
            if (netconf_is_empty_(before, unit, slot) || netconf_has_same_words_(before, next, unit, slot)) continue;
            cleared = 1;
            if ((stopped = netconf_clear_words_(device, unit, slot, words)) != 0) return stopped;
        }
    }
    if (cleared && (stopped = device->fence(device->context)) != 0) return stopped;
    for (unit = 0; unit < layout->unit_count; unit++) {
        words = netconf_words_of(&layout->units[unit]);
        for (slot = 0; slot < layout->units[unit].slots; slot++) {
            if (netconf_is_empty_(next, unit, slot) || netconf_has_same_words_(before, next, unit, slot)) continue;
            if ((stopped = netconf_write_words_(device, next, unit, slot, words)) != 0) return stopped;
        }
    }
    return 0;
}

/* The least n such that bit n of `sizes` is set, and 63 if none is. */
static inline unsigned netconf_smallest_(uint64_t sizes)
{
    unsigned size = 0;
    while (size < 63 && !(sizes >> size & 1)) size++;
    return size;
}

/* Whether a stretch, from an address of it on, continues an earlier one with the same rights. */
static inline int netconf_continues_(const struct netconf_stretch *start, const struct netconf_stretch *next,
                                     uint64_t from)
{
    return next->answer == NETCONF_ANSWER_OUT && next->unit == start->unit && next->port == start->port
           && next->may_read == start->may_read && next->may_write == start->may_write
           && next->output + (from - next->first) == start->output + (from - start->first);
}

/* Makes a page larger as far as the hardware and its stretch allow. */
static inline void netconf_widen_(struct netconf_page *page, const struct netconf_stretch *start, uint64_t address,
                                  uint64_t sizes)
{
    unsigned larger;
    for (larger = page->size + 1u; larger < 57; larger++) {
        uint64_t wide = ((uint64_t)1 << larger) - 1, begin = address & ~wide;
        if (!(sizes >> larger & 1)) continue;
        if (begin < start->first || begin + wide > start->last || ((start->output + (begin - start->first)) & wide))
            return;
        page->first = begin;
        page->last = begin + wide;
        page->output = start->output + (begin - start->first);
        page->size = (uint8_t)larger;
    }
}

NETCONF_API void netconf_page_at(const struct netconf_image *image, unsigned agent, uint64_t address, uint64_t sizes,
                                 struct netconf_page *page)
{
    unsigned size = netconf_smallest_(sizes);
    uint64_t all = ((uint64_t)1 << size) - 1, first = address & ~all, last = first + all, end;
    struct netconf_stretch start, next;
    int is_out, is_even = 1;
    netconf_stretch_at(image, agent, first, &start);
    end = start.last;
    is_out = start.answer == NETCONF_ANSWER_OUT;
    page->first = first;
    page->last = last;
    page->output = 0;
    page->unit = 0;
    page->port = page->may_read = page->may_write = 0;
    page->size = (uint8_t)size;
    page->answer = NETCONF_PAGE_EMPTY;
    while (end < last && is_even) {
        netconf_stretch_at(image, agent, end + 1, &next);
        is_even = is_out ? netconf_continues_(&start, &next, end + 1) : next.answer != NETCONF_ANSWER_OUT;
        end = next.last;
    }
    if (!is_even) {
        page->answer = NETCONF_PAGE_UNEVEN;
    } else if (!is_out) {
        if (end == UINT64_MAX) page->last = UINT64_MAX;
        else if (end - last > all) page->last = ((end + 1) & ~all) - 1;
    } else {
        page->unit = start.unit;
        page->port = start.port;
        page->may_read = start.may_read;
        page->may_write = start.may_write;
        page->output = start.output + (first - start.first);
        page->answer = page->output & all ? NETCONF_PAGE_UNEVEN : NETCONF_PAGE_WHOLE;
        if (page->answer == NETCONF_PAGE_WHOLE) netconf_widen_(page, &start, address, sizes);
        else if (start.last > last) page->last = ((start.last + 1) & ~all) - 1;
    }
}

NETCONF_API int netconf_next_page(const struct netconf_image *image, unsigned agent, uint64_t from, uint64_t sizes,
                                  struct netconf_page *page)
{
    while (image != NULL && from <= NETCONF_LAST_ADDRESS) {
        netconf_page_at(image, agent, from, sizes, page);
        if (page->answer != NETCONF_PAGE_EMPTY) return 1;
        if (page->last >= NETCONF_LAST_ADDRESS) return 0;
        from = page->last + 1;
    }
    return 0;
}

/* Whether an image has this page of an agent. */
static inline int netconf_has_page_(const struct netconf_image *image, unsigned agent, const struct netconf_page *page,
                                    uint64_t sizes)
{
    struct netconf_page there;
    if (image == NULL) return 0;
    netconf_page_at(image, agent, page->first, sizes, &there);
    return there.answer == NETCONF_PAGE_WHOLE && there.first == page->first && there.size == page->size
           && there.output == page->output && there.unit == page->unit && there.port == page->port
           && there.may_read == page->may_read && there.may_write == page->may_write;
}

/* Unmaps the pages of an agent that the next image does not have; `*cleared` becomes 1 if there was one. */
static inline int netconf_unmap_pages_(const struct netconf_image *before, const struct netconf_image *next,
                                       unsigned agent, uint64_t sizes, const struct netconf_page_device *device,
                                       int *cleared)
{
    struct netconf_page page;
    uint64_t from;
    int stopped;
    for (from = 0; netconf_next_page(before, agent, from, sizes, &page); from = page.last + 1) {
        if (page.answer != NETCONF_PAGE_WHOLE || netconf_has_page_(next, agent, &page, sizes)) continue;
        if ((stopped = device->unmap(device->context, agent, &page)) != 0) return stopped;
        *cleared = 1;
    }
    return 0;
}

/* Maps the pages of an agent that the image before did not have, and tells those that are uneven. */
static inline int netconf_map_pages_(const struct netconf_image *before, const struct netconf_image *next,
                                     unsigned agent, uint64_t sizes, const struct netconf_page_device *device)
{
    struct netconf_page page;
    uint64_t from;
    int stopped = 0;
    for (from = 0; stopped == 0 && netconf_next_page(next, agent, from, sizes, &page); from = page.last + 1) {
        if (page.answer == NETCONF_PAGE_UNEVEN) {
            if (device->uneven != NULL) stopped = device->uneven(device->context, agent, &page);
        } else if (!netconf_has_page_(before, agent, &page, sizes)) {
            stopped = device->map(device->context, agent, &page);
        }
    }
    return stopped;
}

NETCONF_API int netconf_change_pages(const struct netconf_image *before, const struct netconf_image *next,
                                     const uint64_t *sizes, const struct netconf_page_device *device)
{
    unsigned agent;
    int stopped, cleared = 0;
    for (agent = 0; agent < next->layout->agent_count; agent++)
        if (sizes[agent] && (stopped = netconf_unmap_pages_(before, next, agent, sizes[agent], device, &cleared)) != 0)
            return stopped;
    if (cleared && (stopped = device->fence(device->context)) != 0) return stopped;
    for (agent = 0; agent < next->layout->agent_count; agent++)
        if (sizes[agent] && (stopped = netconf_map_pages_(before, next, agent, sizes[agent], device)) != 0)
            return stopped;
    return 0;
}

#ifdef __cplusplus
}
#endif

#endif
