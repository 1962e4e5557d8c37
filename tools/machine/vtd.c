/* The functions of netconf_image.h stand in this file. */
#define NETCONF_IMAGE_IMPLEMENTATION
#include "netconf_image.h"

#include "pc.h"
#include "vtd.h"

/* Where the registers are on q35; a machine's firmware tells it in the ACPI table DMAR. */
#define REGISTERS         0xfed90000ULL
#define CAPABILITIES      0x08
#define MORE_CAPABILITIES 0x10
#define COMMAND           0x18
#define STATUS            0x1c
#define ROOT_TABLE        0x20
#define FAULT_STATUS      0x34
#define QUEUE_TAIL        0x88
#define QUEUE_BASE        0x90
#define INTERRUPT_TABLE   0xb8

/* Bits of the command and of the status. */
#define TRANSLATION    0x80000000u
#define SET_ROOT       0x40000000u
#define QUEUE          0x04000000u
#define REMAPPING      0x02000000u
#define SET_INTERRUPTS 0x01000000u

/* What is put into the queue of invalidations: the sort of an order, and what it says. */
#define FORGET_CONTEXTS   0x1u
#define FORGET_PAGES      0x2u
#define FORGET_INTERRUPTS 0x4u
#define WAIT              0x5u
#define ALL               (1u << 4) /* of contexts and pages; of interrupts this bit is 0 for all */
#define DRAIN_WRITES      (1u << 6) /* of pages: writes in flight are done */
#define DRAIN_READS       (1u << 7) /* of pages: reads in flight are done */
#define WRITE_STATUS      (1u << 5) /* of a wait: the upper 32 bits are written to an address */
#define STATUS_DONE       (1ULL << 32)

/* Bits of the entries of tables. */
#define PRESENT          1u
#define READABLE         1u
#define WRITABLE         2u
#define FOUR_LEVELS      2u
#define DOMAIN_AT        8
#define CHECKS_REQUESTER (1ULL << 18)
#define VECTOR_AT        16
#define PROCESSOR_AT     40
#define RECORDS_256      7u /* the size of the table of interrupts: 2^(7 + 1) records */

#define TABLES      64
#define MOST_AGENTS 64
#define WAITS       1000000u

typedef uint64_t vtd_table[512];

static vtd_table root __attribute__((aligned(4096)));
static vtd_table contexts __attribute__((aligned(4096)));
static vtd_table interrupts __attribute__((aligned(4096)));
static vtd_table queue __attribute__((aligned(4096)));
static vtd_table tables[TABLES] __attribute__((aligned(4096)));
static unsigned tables_used, queue_at, is_caching, is_stale;
static volatile uint32_t queue_done;
static uint32_t on;
static const struct netconf_layout *layout;
static int requesters[MOST_AGENTS];          /* for each agent 8 times its device and its function, or -1 */
static const struct netconf_view *processor; /* the agent that is the processor, or NULL */

void (*vtd_word_written)(unsigned handle);
void (*vtd_fence_passed)(void);

/* Gives a command, and waits until the status shows it. */
static int command(uint32_t bit, int stays)
{
    unsigned turns;
    write32(REGISTERS + COMMAND, on | bit);
    for (turns = 0; turns < WAITS && !(read32(REGISTERS + STATUS) & bit); turns++) pause();
    if (stays) on |= bit;
    return turns == WAITS;
}

/* Puts one order into the queue of invalidations. */
static void order(uint64_t low, uint64_t high)
{
    queue[2 * queue_at] = low;
    queue[2 * queue_at + 1] = high;
    queue_at = (queue_at + 1) % 256;
}

/* The fence: has all contexts, pages and interrupts that are kept forgotten, and waits until they are. After it no lookup
 * that began before is in flight. */
int vtd_forget(void)
{
    unsigned turns;
    queue_done = 0;
    order(FORGET_CONTEXTS | ALL, 0);
    order(FORGET_PAGES | ALL | DRAIN_WRITES | DRAIN_READS, 0);
    order(FORGET_INTERRUPTS, 0);
    order(WAIT | WRITE_STATUS | STATUS_DONE, (uintptr_t)&queue_done);
    write64(REGISTERS + QUEUE_TAIL, (uint64_t)queue_at << 4);
    for (turns = 0; turns < WAITS && !queue_done; turns++) pause();
    is_stale = 0;
    return turns == WAITS;
}

int vtd_is_stale(void) { return (int)is_stale; }

int vtd_start(void)
{
    uint64_t can = read64(REGISTERS + CAPABILITIES), more = read64(REGISTERS + MORE_CAPABILITIES);
    int has_four_levels = can >> 10 & 1, has_queue = more >> 1 & 1, has_remapping = more >> 3 & 1;
    unsigned n;
    if (!has_four_levels || !has_queue || !has_remapping) return 1;
    is_caching = can >> 7 & 1;
    root[0] = (uintptr_t)contexts | PRESENT;
    write64(REGISTERS + ROOT_TABLE, (uintptr_t)root);
    if (command(SET_ROOT, 0)) return 1;
    write64(REGISTERS + QUEUE_TAIL, 0);
    write64(REGISTERS + QUEUE_BASE, (uintptr_t)queue);
    if (command(QUEUE, 1)) return 1;
    for (n = 0; n < 512; n++) interrupts[n] = 0;
    write64(REGISTERS + INTERRUPT_TABLE, (uintptr_t)interrupts | RECORDS_256);
    if (command(SET_INTERRUPTS, 0) || vtd_forget()) return 1;
    return command(REMAPPING, 1) || command(TRANSLATION, 1);
}

const char *vtd_note_part(const char *note, const char *word)
{
    while (*note) {
        const char *at = word;
        while (*at && *note == *at) note++, at++;
        if (*at == 0 && (*note == 0 || *note == ',' || *note == ' ')) return *note == ' ' ? note + 1 : note;
        while (*note && *note != ',') note++;
        while (*note == ',' || *note == ' ') note++;
    }
    return NULL;
}

/* The number in the base at the beginning of a text, which is moved past it. */
static unsigned number_in(const char **text, unsigned base)
{
    unsigned value = 0;
    for (;; (*text)++) {
        unsigned digit = (unsigned)(**text >= '0' && **text <= '9' ? **text - '0'
                                    : (**text | 32) >= 'a'         ? (**text | 32) - 'a' + 10
                                                                   : 99);
        if (digit >= base) return value;
        value = value * base + digit;
    }
}

/* The function that a note names, as `pci 0:3.0`, in the form of a requester: 8 times the device, and the function. Returns
 * -1 if the note names none on bus 0. */
static int requester_of(const char *note)
{
    const char *at = vtd_note_part(note, "pci");
    unsigned bus, device, function;
    if (at == NULL) return -1;
    bus = number_in(&at, 16);
    if (*at++ != ':') return -1;
    device = number_in(&at, 16);
    if (*at++ != '.') return -1;
    function = number_in(&at, 16);
    return bus != 0 || device > 31 || function > 7 || (*at != 0 && *at != ',') ? -1 : (int)(8 * device + function);
}

/* Reads the notes on the agents of a layout: which functions they are, and which one is the processor. */
static void read_notes(void)
{
    unsigned agent;
    processor = NULL;
    for (agent = 0; agent < layout->agent_count; agent++) {
        const struct netconf_view *view = &layout->agents[agent];
        requesters[agent] = requester_of(view->note);
        if (processor == NULL && vtd_note_part(view->note, "processor") != NULL) processor = view;
    }
}

/* The table of the last level for an address of a function, made where it is not there; NULL where none is left. */
static uint64_t *leaf_of(unsigned function, uint64_t address)
{
    uint64_t *entry = &contexts[2 * function];
    unsigned level;
    if (!(*entry & PRESENT)) {
        if (tables_used == TABLES) return NULL;
        contexts[2 * function + 1] = FOUR_LEVELS | (uint64_t)(function + 1) << DOMAIN_AT; /* a domain of its own */
        *entry = (uintptr_t)tables[tables_used++] | PRESENT;
    }
    entry = (uint64_t *)(uintptr_t)(*entry & ~0xfffULL);
    for (level = 3; level > 0; level--) {
        entry += address >> (12 + 9 * level) & 511;
        if (!(*entry & (READABLE | WRITABLE))) {
            if (tables_used == TABLES) return NULL;
            *entry = (uintptr_t)tables[tables_used++] | READABLE | WRITABLE;
        }
        entry = (uint64_t *)(uintptr_t)(*entry & ~0xfffULL);
    }
    return entry + (address >> 12 & 511);
}

/* The processor's address of what a page's first address comes to after the last unit: the name of it at the port, and where
 * the processor has that name. */
static int host_address(const struct netconf_page *page, uint64_t *host)
{
    const struct netconf_view *port = &layout->units[page->unit].ports[page->port];
    const struct netconf_place *place = netconf_place_at(port, page->output, 0);
    uint64_t within;
    if (place == NULL || processor == NULL) return 1;
    within = page->output - place->address;
    if (within + (page->last - page->first) > place->last - place->first) return 1;
    return !netconf_address_of(processor, place->node, place->first + within, host);
}

/* Writes one half of a record of interrupts. The half with the bit that says that the record counts is the low one. */
static void write_half(unsigned handle, unsigned half, uint64_t value)
{
    *(volatile uint64_t *)&interrupts[2 * handle + half] = value;
    if (vtd_word_written != NULL) vtd_word_written(handle);
}

/* Puts a record of interrupts: the vector at the page's output, the processor that the port's note names, and the one
 * function whose messages count. */
static int put_interrupt(unsigned handle, int requester, const struct netconf_page *page)
{
    const char *apic = vtd_note_part(layout->units[page->unit].ports[page->port].note, "apic");
    uint64_t low, high = (uint64_t)requester | CHECKS_REQUESTER;
    if (apic == NULL) return 1;
    low = PRESENT | page->output << VECTOR_AT | (uint64_t)number_in(&apic, 10) << PROCESSOR_AT;
    write_half(handle, 1, high);
    write_half(handle, 0, low);
    return 0;
}

uint32_t vtd_handle_of(const struct netconf_layout *net, unsigned agent, uint64_t line)
{
    uint64_t from, to;
    const struct netconf_window *window = netconf_window_at(&net->agents[agent], line, &from, &to);
    return window == NULL ? UINT32_MAX : (uint32_t)(window->input + (line - window->first));
}

/* Whether an agent's pages are lines of interrupts. */
static int has_lines(unsigned agent)
{
    const struct netconf_view *view = &layout->agents[agent];
    return view->window_count != 0 && layout->units[view->windows[0].unit].kind == NETCONF_KIND_VECTORS;
}

static int map(void *context, unsigned agent, const struct netconf_page *page)
{
    int requester = requesters[agent];
    uint64_t host, *leaf;
    (void)context;
    if (requester < 0 || !(page->may_read || page->may_write)) return 1;
    if (has_lines(agent)) {
        uint32_t handle = vtd_handle_of(layout, agent, page->first);
        return handle > 255 || page->output > 255 || put_interrupt(handle, requester, page);
    }
    if (page->first >> 48 || host_address(page, &host)) return 1;
    if ((leaf = leaf_of((unsigned)requester, page->first)) == NULL) return 1;
    *(volatile uint64_t *)leaf = host | (page->may_read ? READABLE : 0) | (page->may_write ? WRITABLE : 0);
    return 0;
}

static int unmap(void *context, unsigned agent, const struct netconf_page *page)
{
    uint64_t *leaf;
    (void)context;
    is_stale = 1;
    if (has_lines(agent)) {
        uint32_t handle = vtd_handle_of(layout, agent, page->first);
        write_half(handle, 0, 0);
        write_half(handle, 1, 0);
        return 0;
    }
    leaf = leaf_of((unsigned)requesters[agent], page->first);
    if (leaf == NULL) return 1;
    *(volatile uint64_t *)leaf = 0;
    return 0;
}

static int fence(void *context)
{
    (void)context;
    if (vtd_forget()) return 1;
    if (vtd_fence_passed != NULL) vtd_fence_passed();
    return 0;
}

/* Where the fence is an event of its own, a change has none. */
static int no_fence(void *context)
{
    (void)context;
    return 0;
}

/* A page that the hardware cannot say is a fault of the board here: every page of this one can be said. */
static int uneven(void *context, unsigned agent, const struct netconf_page *page)
{
    (void)context;
    print("FAILED: agent %s has no page of the hardware at %x\n", layout->agents[agent].name, page->first);
    return 1;
}

static int change(const struct netconf_image *before, const struct netconf_image *next, int (*wait)(void *))
{
    const struct netconf_page_device device = {NULL, map, unmap, wait, uneven};
    uint64_t sizes[MOST_AGENTS];
    unsigned agent;
    layout = next->layout;
    if (layout->agent_count > MOST_AGENTS) return 1;
    read_notes();
    for (agent = 0; agent < layout->agent_count; agent++) sizes[agent] = has_lines(agent) ? 1 : 1 << 12;
    if (netconf_change_pages(before, next, sizes, &device)) return 1;
    return is_caching ? vtd_forget() : 0;
}

int vtd_load(const struct netconf_image *before, const struct netconf_image *next)
{
    return change(before, next, fence);
}

int vtd_write(const struct netconf_image *before, const struct netconf_image *next)
{
    return change(before, next, no_fence);
}

int vtd_fault(unsigned *function, uint64_t *page, int *is_write)
{
    uint64_t record = REGISTERS + (read64(REGISTERS + CAPABILITIES) >> 24 & 0x3ff) * 16;
    uint64_t high = read64(record + 8);
    if (!(high >> 63)) return 0;
    *page = read64(record) & ~0xfffULL;
    *function = (unsigned)(high & 0xffff);
    *is_write = !(high >> 62 & 1);
    write32(record + 12, 0x80000000u);
    write32(REGISTERS + FAULT_STATUS, 1);
    return 1;
}
