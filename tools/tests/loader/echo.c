/* Prints the layout in a header that netconf-layout made, as the tests print it. */
#include <inttypes.h>
#include <stdio.h>

#include "layout.h"

static void print_view(const struct netconf_view *view)
{
    uint32_t n;
    printf("%s|%s %u %" PRIu32 " %" PRIu32 "\n", view->name, view->note, view->node, view->window_count,
           view->place_count);
    for (n = 0; n < view->window_count; n++)
        printf("%" PRIu64 " %" PRIu64 " %" PRIu64 " %u\n", view->windows[n].first, view->windows[n].last,
               view->windows[n].input, view->windows[n].unit);
    for (n = 0; n < view->place_count; n++)
        printf("%" PRIu64 " %" PRIu64 " %" PRIu64 " %u\n", view->places[n].first, view->places[n].last,
               view->places[n].address, view->places[n].node);
}

int main(void)
{
    unsigned unit, n;
    printf("%u %u\n", layout.unit_count, layout.agent_count);
    for (unit = 0; unit < layout.unit_count; unit++) {
        const struct netconf_unit *shape = &layout.units[unit];
        printf("%s|%s %u %u %u %" PRIu32 " %u %u\n", shape->name, shape->note, shape->node, (unsigned)shape->kind,
               shape->page, shape->slots, shape->reach, shape->port_count);
        for (n = 0; n < shape->port_count; n++) print_view(&shape->ports[n]);
    }
    for (n = 0; n < layout.agent_count; n++) print_view(&layout.agents[n]);
    return 0;
}
