/* Does with tools/loader/netconf_image.h what it reads on standard input, and prints what comes of it. Each layout and image
 * has memory of its own of exactly its size, so that a sanitizer sees each byte that is read past an end. */
#include <inttypes.h>
#include <stdio.h>
#include <stdlib.h>
#include <string.h>

#define NETCONF_IMAGE_IMPLEMENTATION
#include "netconf_image.h"

static struct netconf_layout layout;
static struct netconf_image images[2];
static int is_open[2];
static void *owned[4096];
static size_t owned_count;
static unsigned char *bytes[2];

static void *memory(size_t size)
{
    void *made = size == 0 ? NULL : malloc(size);
    if ((size != 0 && made == NULL) || owned_count == sizeof owned / sizeof *owned) exit(3);
    owned[owned_count++] = made;
    return made;
}

static uint64_t number(void)
{
    char word[40];
    if (scanf("%39s", word) != 1) exit(2);
    return strtoull(word, NULL, 0);
}

static void read_view(struct netconf_view *view)
{
    struct netconf_window *windows;
    struct netconf_place *places;
    uint32_t n;
    view->name = view->note = "";
    view->node = (uint16_t)number();
    view->window_count = (uint32_t)number();
    view->place_count = (uint32_t)number();
    view->windows = windows = (struct netconf_window *)memory(view->window_count * sizeof *windows);
    view->places = places = (struct netconf_place *)memory(view->place_count * sizeof *places);
    for (n = 0; n < view->window_count; n++) {
        windows[n].first = number();
        windows[n].last = number();
        windows[n].input = number();
        windows[n].unit = (uint16_t)number();
    }
    for (n = 0; n < view->place_count; n++) {
        places[n].first = number();
        places[n].last = number();
        places[n].address = number();
        places[n].node = (uint16_t)number();
    }
}

static void read_layout(void)
{
    struct netconf_unit *units;
    struct netconf_view *views;
    unsigned unit, n;
    while (owned_count > 0) free(owned[--owned_count]);
    is_open[0] = is_open[1] = 0;
    layout.unit_count = (uint16_t)number();
    layout.agent_count = (uint16_t)number();
    layout.units = units = (struct netconf_unit *)memory(layout.unit_count * sizeof *units);
    for (unit = 0; unit < layout.unit_count; unit++) {
        units[unit].name = units[unit].note = "";
        units[unit].node = (uint16_t)number();
        units[unit].kind = (enum netconf_kind)number();
        units[unit].page = (uint8_t)number();
        units[unit].slots = (uint32_t)number();
        units[unit].reach = (uint8_t)number();
        units[unit].port_count = (uint8_t)number();
        units[unit].ports = views = (struct netconf_view *)memory(units[unit].port_count * sizeof *views);
        for (n = 0; n < units[unit].port_count; n++) read_view(&views[n]);
    }
    layout.agents = views = (struct netconf_view *)memory(layout.agent_count * sizeof *views);
    for (n = 0; n < layout.agent_count; n++) read_view(&views[n]);
}

static void read_image(void)
{
    static const char *const names[] = {"fine", "Short", "Header", "Shape", "Trailing", "Layout"};
    unsigned which = (unsigned)number() & 1;
    size_t size = (size_t)number(), n;
    struct netconf_problem problem;
    unsigned value;
    free(bytes[which]);
    bytes[which] = size == 0 ? NULL : (unsigned char *)malloc(size);
    for (n = 0; n < size; n++) {
        if (scanf("%2x", &value) != 1) exit(2);
        bytes[which][n] = (unsigned char)value;
    }
    problem = netconf_open(&images[which], &layout, bytes[which], size);
    is_open[which] = problem.fault == NETCONF_FAULT_NONE;
    printf("%s %" PRIu64 "\n", names[problem.fault], problem.place);
}

static const struct netconf_image *image(void)
{
    unsigned which = (unsigned)number();
    if (which > 1) return NULL;
    if (!is_open[which]) exit(4);
    return &images[which];
}

static void print_slots(void)
{
    const struct netconf_image *from = image();
    struct netconf_record record;
    unsigned unit;
    uint32_t slot;
    for (unit = 0; unit <= layout.unit_count; unit++)
        for (slot = 0; slot <= (unit < layout.unit_count ? layout.units[unit].slots : 0); slot++)
            if (netconf_record_at(from, unit, slot, &record))
                printf("%u %" PRIu32 " %u %" PRIu64 " %u %u\n", unit, slot, record.port, record.output, record.may_read,
                       record.may_write);
    puts("end");
}

static void print_lookup(void)
{
    const struct netconf_image *from = image();
    unsigned agent = (unsigned)number();
    uint64_t address = number();
    enum netconf_access access = number() ? NETCONF_ACCESS_WRITE : NETCONF_ACCESS_READ;
    struct netconf_exit found;
    enum netconf_answer answer = netconf_lookup(from, agent, address, access, &found);
    if (answer == NETCONF_ANSWER_OUT) printf("out %u %u %" PRIu64 "\n", found.unit, found.port, found.output);
    else puts(answer == NETCONF_ANSWER_FIXED ? "fixed" : "nothing");
}

static void print_page(const char *what, unsigned agent, const struct netconf_page *page)
{
    printf("%s %u %" PRIu64 " %" PRIu64 " %u %u %u %" PRIu64 " %u %u\n", what, agent, page->first, page->last,
           page->size, page->unit, page->port, page->output, page->may_read, page->may_write);
}

static void print_pages(void)
{
    const struct netconf_image *from = image();
    unsigned agent = (unsigned)number();
    uint64_t sizes = number(), at = 0;
    struct netconf_page page;
    for (; netconf_next_page(from, agent, at, sizes, &page); at = page.last + 1)
        print_page(page.answer == NETCONF_PAGE_WHOLE ? "page" : "uneven", agent, &page);
    puts("end");
}

/* Devices that print what they are told, and stop at the event of this number. */
static unsigned events, stop_at;

static int event(void) { return ++events == stop_at ? 7 : 0; }

static int put(void *context, unsigned unit, uint32_t slot, const struct netconf_record *record)
{
    (void)context;
    printf("put %u %" PRIu32 " %u %" PRIu64 " %u %u\n", unit, slot, record->port, record->output, record->may_read,
           record->may_write);
    return event();
}

static int clear(void *context, unsigned unit, uint32_t slot)
{
    (void)context;
    printf("clear %u %" PRIu32 "\n", unit, slot);
    return event();
}

static int fence(void *context)
{
    (void)context;
    puts("fence");
    return event();
}

static int write_word(void *context, unsigned unit, uint32_t word, uint64_t value)
{
    (void)context;
    printf("write %u %" PRIu32 " %" PRIu64 "\n", unit, word, value);
    return event();
}

static int map(void *context, unsigned agent, const struct netconf_page *page)
{
    (void)context;
    print_page("map", agent, page);
    return event();
}

static int unmap(void *context, unsigned agent, const struct netconf_page *page)
{
    (void)context;
    print_page("unmap", agent, page);
    return event();
}

static int uneven(void *context, unsigned agent, const struct netconf_page *page)
{
    (void)context;
    print_page("uneven", agent, page);
    return event();
}

static void print_changes(const char *how)
{
    const struct netconf_image *before = image(), *next = image();
    struct netconf_slot_device device = {NULL, put, clear, fence};
    struct netconf_word_device words = {NULL, write_word, fence};
    struct netconf_page_device pages = {NULL, map, unmap, fence, uneven};
    uint64_t sizes[64];
    unsigned agent;
    events = 0;
    stop_at = (unsigned)number();
    if (next == NULL) exit(2);
    if (strcmp(how, "change") == 0) printf("end %d\n", netconf_change_slots(before, next, &device));
    else if (strcmp(how, "words") == 0) printf("end %d\n", netconf_change_words(before, next, &words));
    else {
        for (agent = 0; agent < layout.agent_count; agent++) sizes[agent] = number();
        printf("end %d\n", netconf_change_pages(before, next, sizes, &pages));
    }
}

int main(void)
{
    char word[20];
    while (scanf("%19s", word) == 1) {
        if (strcmp(word, "layout") == 0) read_layout();
        else if (strcmp(word, "image") == 0) read_image();
        else if (strcmp(word, "slots") == 0) print_slots();
        else if (strcmp(word, "lookup") == 0) print_lookup();
        else if (strcmp(word, "pages") == 0) print_pages();
        else print_changes(word);
    }
    while (owned_count > 0) free(owned[--owned_count]);
    free(bytes[0]);
    free(bytes[1]);
    return 0;
}
