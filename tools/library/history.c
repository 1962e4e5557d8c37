/* SPDX-License-Identifier: Apache-2.0 */
/*
 * Plays histories of grants and revokes, many in one process: it does what each line of standard input asks, performs the
 * events on tables of its own, and prints what came of it.
 *
 * A line is one of
 *     open PATH                                        closes the session and opens the description in a file
 *     grant ID AGENT NODE BASE SIZE RIGHTS             prints `STATUS ADDRESS`
 *     at ADDRESS ID AGENT NODE BASE SIZE RIGHTS        the same, of a grant at an address of the agent
 *     route ID AGENT LINE NODE                         prints `STATUS VECTOR`
 *     gather AGENT RIGHTS [ID NODE BASE SIZE]...       prints `STATUS ADDRESS PIECE`
 *     revoke ID                                        prints `STATUS 0`
 *     resolve NODE ADDRESS ACCESS                      prints `names` and the number and the address of each
 *     view NODE ACCESS                                 prints a line `row FIRST LAST NODE ADDRESS` for each row
 *     image                                            prints the bytes of the image, and keeps them
 *     lookup AGENT ADDRESS ACCESS                      as resolve, of the image that was kept
 *     audit                                            prints the report on that image
 *     words                                            prints `unit NUMBER` and the words of each unit
 *     end                                              prints `end`
 * What is asked without a status is printed in hexadecimal.
 *
 * Status 1: a line is none of these, a description is not opened, or an event is none of the description's units.
 */
#include <inttypes.h>
#include <netconf.h>
#include <stdio.h>
#include <stdlib.h>
#include <string.h>

#define LONGEST_TEXT 4194304u
#define UNITS        1024

static struct netconf session;
static uint64_t *words[UNITS];
static uint32_t sizes[UNITS];
static uint8_t image[1u << 20];
static size_t image_size;

static int perform_one(const struct netconf_event *event)
{
    if (event->kind == NETCONF_FENCE) return 1;
    if (event->unit >= UNITS) return 0;
    if (event->kind == NETCONF_MAKE) {
        free(words[event->unit]);
        words[event->unit] = calloc(event->word, sizeof(uint64_t));
        sizes[event->unit] = event->word;
        return words[event->unit] != NULL;
    }
    if (event->word >= sizes[event->unit]) return 0;
    words[event->unit][event->word] = event->value;
    return 1;
}

/* Performs what is pending, a few events at a time. Answers 0 where an event is none of the description's units. */
static int perform(void)
{
    struct netconf_event events[5];
    size_t from = 0, count, at;

    do {
        if (netconf_pending(&session, from, events, 5, &count) != NETCONF_DONE) return 0;
        for (at = 0; at < count; at++)
            if (!perform_one(&events[at])) return 0;
        from += count;
    } while (count == 5);
    return netconf_settle(&session) == NETCONF_DONE;
}

static void forget_units(void)
{
    unsigned unit;

    for (unit = 0; unit < UNITS; unit++) {
        free(words[unit]);
        words[unit] = NULL;
    }
}

static int open_file(const char *path)
{
    static uint8_t text[LONGEST_TEXT];
    uint8_t line[256];
    size_t size, written;
    FILE *file = fopen(path, "rb");

    if (!file) return 0;
    size = fread(text, 1, sizeof text, file);
    fclose(file);
    netconf_close(&session);
    forget_units();
    return netconf_open(&session, text, size, line, sizeof line, &written) == NETCONF_DONE && perform();
}

static void print_words(void)
{
    uint32_t unit, word;

    for (unit = 0; unit < UNITS; unit++) {
        if (!words[unit]) continue;
        printf("unit %" PRIu32, unit);
        for (word = 0; word < sizes[unit]; word++) printf(" %" PRIx64, words[unit][word]);
        printf("\n");
    }
}

/* Asks and prints, a few places and rows at a time; answers 0 where a call is not done. */
static int print_names(unsigned node, uint64_t address, unsigned access, int is_of_image)
{
    struct netconf_place places[64];
    uint64_t where;
    size_t count, at;
    uint32_t status;

    status = is_of_image ? netconf_lookup(&session, image, image_size, (uint16_t)node, address, (uint8_t)access, places,
                                          64, &count, &where)
                         : netconf_resolve(&session, (uint16_t)node, address, (uint8_t)access, places, 64, &count);
    if (status != NETCONF_DONE) return 0;
    printf("names");
    for (at = 0; at < count && at < 64; at++) printf(" %" PRIx32 " %" PRIx64, places[at].node, places[at].address);
    printf("\n");
    return 1;
}

static int print_view(unsigned node, unsigned access)
{
    struct netconf_row rows[3];
    size_t from, count, at;

    for (from = 0;; from += 3) {
        if (netconf_view(&session, (uint16_t)node, (uint8_t)access, from, rows, 3, &count) != NETCONF_DONE) return 0;
        if (from >= count) return 1;
        for (at = 0; at < 3 && from + at < count; at++)
            printf("row %" PRIx64 " %" PRIx64 " %" PRIx32 " %" PRIx64 "\n", rows[at].first, rows[at].last,
                   rows[at].place.node, rows[at].place.address);
    }
}

static int print_image(void)
{
    size_t at;

    if (netconf_image(&session, image, sizeof image, &image_size) != NETCONF_DONE) return 0;
    for (at = 0; at < image_size; at++) printf("%02x", image[at]);
    printf("\n");
    return 1;
}

static int print_audit(void)
{
    static uint8_t out[1u << 20];
    size_t size;
    uint64_t at;

    if (netconf_audit(&session, image, image_size, out, sizeof out, &size, &at) != NETCONF_DONE) return 0;
    return fwrite(out, 1, size, stdout) == size;
}

/* Grants pieces; the words after the rights are four for each. Answers 0 where they are none. */
static int gather(const char *words)
{
    struct netconf_piece pieces[8];
    uint64_t address = 0;
    uint32_t piece = 0, status;
    unsigned agent, rights, node;
    size_t count = 0;
    int read;

    if (sscanf(words, "%u %u%n", &agent, &rights, &read) != 2) return 0;
    memset(pieces, 0, sizeof pieces);
    for (words += read; count < 8; words += read, count++) {
        if (sscanf(words, "%" SCNu32 " %u %" SCNu64 " %" SCNu64 "%n", &pieces[count].id, &node, &pieces[count].base,
                   &pieces[count].size, &read)
            != 4)
            break;
        pieces[count].node = (uint16_t)node;
    }
    status = netconf_gather(&session, (uint16_t)agent, pieces, count, (uint8_t)rights, &address, &piece);
    printf("%" PRIu32 " %" PRIu64 " %" PRIu32 "\n", status, address, piece);
    return perform();
}

/* Makes the call that a line asks for, and tells its status and an address. Answers 0 where it asks for none. */
static int call(const char *line, uint32_t *status, uint64_t *address)
{
    uint64_t base, size, at;
    uint32_t id;
    unsigned agent, node, rights;

    if (sscanf(line, "grant %" SCNu32 " %u %u %" SCNu64 " %" SCNu64 " %u", &id, &agent, &node, &base, &size, &rights)
        == 6)
        *status = netconf_grant(&session, id, (uint16_t)agent, (uint16_t)node, base, size, (uint8_t)rights, address);
    else if (sscanf(line, "at %" SCNu64 " %" SCNu32 " %u %u %" SCNu64 " %" SCNu64 " %u", &at, &id, &agent, &node, &base,
                    &size, &rights)
             == 7)
        *status =
            netconf_grant_at(&session, id, (uint16_t)agent, (uint16_t)node, base, size, (uint8_t)rights, at, address);
    else if (sscanf(line, "route %" SCNu32 " %u %" SCNu64 " %u", &id, &agent, &at, &node) == 4)
        *status = netconf_route(&session, id, (uint16_t)agent, at, (uint16_t)node, address);
    else if (sscanf(line, "revoke %" SCNu32, &id) == 1) *status = netconf_revoke(&session, id);
    else return 0;
    return 1;
}

static int answer_line(char *line)
{
    uint32_t status;
    uint64_t address = 0, asked;
    unsigned node, access;

    line[strcspn(line, "\n")] = 0;
    if (!strncmp(line, "open ", 5)) return open_file(line + 5);
    if (!strcmp(line, "words")) {
        print_words();
        return 1;
    }
    if (!strcmp(line, "image")) return print_image();
    if (!strcmp(line, "end")) return printf("end\n") > 0;
    if (sscanf(line, "resolve %u %" SCNu64 " %u", &node, &asked, &access) == 3)
        return print_names(node, asked, access, 0);
    if (sscanf(line, "lookup %u %" SCNu64 " %u", &node, &asked, &access) == 3)
        return print_names(node, asked, access, 1);
    if (!strncmp(line, "gather ", 7)) return gather(line + 7);
    if (!strcmp(line, "audit")) return print_audit();
    if (sscanf(line, "view %u %u", &node, &access) == 2) return print_view(node, access);
    if (!call(line, &status, &address)) return 0;
    printf("%" PRIu32 " %" PRIu64 "\n", status, address);
    return perform();
}

int main(void)
{
    char line[4096];

    while (fgets(line, sizeof line, stdin)) {
        if (!answer_line(line)) {
            fprintf(stderr, "history: %s\n", line);
            return 1;
        }
    }
    netconf_close(&session);
    forget_units();
    return 0;
}
