/* Keeps the tables that events of the library make as an image, and brings the IOMMU from each image to the next. */
#include "events.h"

#include "board.h"
#include "pc.h"
#include "vtd.h"

#define HEAD       8u /* bytes of an image before its units, and of a unit before its words */
#define MOST_BYTES 4096u
#define GATE       1u

const struct netconf_layout *const events_layout = &board;

static unsigned char bytes[2][MOST_BYTES]; /* the image as it was, and as it is */
static struct netconf_image images[2];

static void put(unsigned char *at, uint64_t value, unsigned count)
{
    for (; count > 0; count--, value >>= 8) *at++ = (unsigned char)value;
}

/* Opens the images of tables that are all 0. */
static int begin(void)
{
    size_t size = HEAD;
    unsigned unit, n;
    memcpy(bytes[1], "DNIM", 4);
    put(bytes[1] + 4, 2, 2);
    put(bytes[1] + 6, board.unit_count, 2);
    for (unit = 0; unit < board.unit_count; unit++) {
        unsigned words = netconf_words_of(&board.units[unit]);
        if (size + HEAD + 8ULL * words * board.units[unit].slots > MOST_BYTES) return 1;
        put(bytes[1] + size, board.units[unit].node, 2);
        put(bytes[1] + size + 2, words, 2);
        put(bytes[1] + size + 4, board.units[unit].slots, 4);
        memset(bytes[1] + size + HEAD, 0, 8ULL * words * board.units[unit].slots);
        size += HEAD + 8ULL * words * board.units[unit].slots;
    }
    memcpy(bytes[0], bytes[1], size);
    for (n = 0; n < 2; n++)
        if (netconf_open(&images[n], &board, bytes[n], size).fault != NETCONF_FAULT_NONE) return 1;
    return 0;
}

/* The place of the unit of a node, or the number of units where the node is none. */
static unsigned unit_of(uint32_t node)
{
    unsigned unit;
    for (unit = 0; unit < board.unit_count && board.units[unit].node != node; unit++) continue;
    return unit;
}

/* Sets a word of a unit, and brings the IOMMU to what the tables are then. */
static int set(unsigned unit, uint32_t word, uint64_t value)
{
    size_t at = images[1].words_at[unit] + 8ULL * word;
    int failed;
    put(bytes[1] + at, value, 8);
    failed = vtd_write(&images[0], &images[1]);
    put(bytes[0] + at, value, 8);
    return failed;
}

int events_make(uint32_t node, uint32_t words)
{
    unsigned unit = unit_of(node);
    uint32_t word;
    if (unit == board.unit_count || words != netconf_words_of(&board.units[unit]) * board.units[unit].slots) return 1;
    if (images[1].layout == NULL && begin()) return 1;
    for (word = words; word-- > 0;)
        if (netconf_raw_word(&images[1], unit, word / netconf_words_of(&board.units[unit]),
                             word % netconf_words_of(&board.units[unit]))
            && set(unit, word, 0))
            return 1;
    return vtd_is_stale() ? vtd_forget() : 0;
}

int events_write(uint32_t node, uint32_t word, uint64_t value)
{
    unsigned unit = unit_of(node);
    if (images[1].layout == NULL || unit == board.unit_count) return 1;
    if (word >= netconf_words_of(&board.units[unit]) * board.units[unit].slots) return 1;
    return set(unit, word, value);
}

int events_fence(void) { return vtd_forget(); }
