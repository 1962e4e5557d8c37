/* The memory and the cards of a trial. A card copies words from memory and to it, and sends messages; every word of memory has a
 * value of its own, so that what a card read tells from where. */
#include "cards.h"

#include "netconf_image.h"
#include "pc.h"
#include "vtd.h"

#define CARD_KIND    0x11e81234u /* the card `edu` of QEMU */
#define CARD_RAISE   0x60
#define CARD_QUIET   0x64
#define CARD_SOURCE  0x80
#define CARD_TARGET  0x88
#define CARD_COUNT   0x90
#define CARD_COMMAND 0x98
#define CARD_BUFFER  0x40000
#define MOST_CARDS   8
#define MOST_WORDS   0x40000 /* of memory: 2 MiB */
#define SHOWN        40

struct piece {
    uint64_t address;
    size_t words, shadow;
};

static struct piece pieces[8];
static unsigned piece_count;
unsigned step;
const char *step_name;
static const struct card *cards;
static unsigned card_count;
static uint64_t shadow[MOST_WORDS];
uint64_t held[MOST_CARDS][CARD_WORDS + 1];
static uint64_t registers[MOST_CARDS];
static unsigned message_at[MOST_CARDS];
static unsigned passed, failed;
static uint64_t seed;

int differs(int is_same)
{
    if (is_same) {
        passed++;
        return 0;
    }
    failed++;
    if (failed <= SHOWN) print("FAILED: %s %d: ", step_name, step);
    return failed <= SHOWN;
}

void finish(void)
{
    print("%d passed, %d failed\n", passed, failed);
    leave();
}

void end_of_comparison(void)
{
#ifdef STOP_AT_FIRST
    if (failed != 0) finish();
#endif
}

void give_up(const char *what)
{
    failed++;
    print("FAILED: %s %d: %s\n", step_name, step, what);
    finish();
}

/* ---- memory ---- */

static uint64_t value_of(uint64_t address)
{
    uint64_t value = (address ^ seed << 40) + 0x9e3779b97f4a7c15ULL;
    value = (value ^ value >> 30) * 0xbf58476d1ce4e5b9ULL;
    value = (value ^ value >> 27) * 0x94d049bb133111ebULL;
    return value ^ value >> 31;
}

volatile uint64_t *memory_at(uint64_t address) { return (volatile uint64_t *)(uintptr_t)address; }

void find_memory(const struct netconf_layout *layout)
{
    unsigned agent;
    size_t used = 0;
    uint32_t n;
    for (agent = 0; agent < layout->agent_count; agent++) {
        const struct netconf_view *view = &layout->agents[agent];
        if (vtd_note_part(view->note, "processor") == NULL) continue;
        for (n = 0; n < view->place_count; n++) {
            struct piece piece = {view->places[n].address,
                                  (size_t)(view->places[n].last - view->places[n].first + 1) / 8, used};
            used += piece.words;
            if (piece_count == sizeof pieces / sizeof *pieces || used > MOST_WORDS)
                give_up("the description has too much memory");
            pieces[piece_count++] = piece;
        }
    }
    if (piece_count == 0) give_up("no agent of the description is the processor, or it sees no memory");
}

uint64_t *shadow_at(uint64_t address)
{
    unsigned n;
    for (n = 0; n < piece_count; n++)
        if (address >= pieces[n].address && (address - pieces[n].address) / 8 < pieces[n].words)
            return &shadow[pieces[n].shadow + (address - pieces[n].address) / 8];
    give_up("the program names memory that the processor does not have");
    return NULL;
}

void fill_memory(void)
{
    unsigned n;
    size_t word;
    seed++;
    for (n = 0; n < piece_count; n++)
        for (word = 0; word < pieces[n].words; word++)
            shadow[pieces[n].shadow + word] = memory_at(pieces[n].address)[word] =
                value_of(pieces[n].address + 8 * word);
}

void compare_memory(const char *after)
{
    unsigned n;
    size_t word;
    for (n = 0; n < piece_count; n++) {
        volatile uint64_t *memory = memory_at(pieces[n].address);
        uint64_t *due = &shadow[pieces[n].shadow];
        for (word = 0; word < pieces[n].words && memory[word] == due[word]; word++) continue;
        if (differs(word == pieces[n].words))
            print("after %s memory at %x has changed\n", after, pieces[n].address + 8 * word);
        for (; word < pieces[n].words; word++) due[word] = memory[word];
        end_of_comparison();
    }
}

/* ---- cards ---- */

void find_cards(const struct card *described, unsigned count)
{
    unsigned n, at;
    cards = described;
    card_count = count;
    for (n = 0; n < card_count; n++) {
        unsigned device = cards[n].device, function = cards[n].function;
        if (n == MOST_CARDS || pci_read(device, function, 0) != CARD_KIND)
            give_up("a card is not where the description has it");
        registers[n] = pci_read(device, function, 0x10) & ~0xfu;
        pci_write(device, function, 4, pci_read(device, function, 4) | 6);
        for (at = pci_read(device, function, 0x34) & 0xfc; at != 0 && (pci_read(device, function, at) & 0xff) != 5;)
            at = pci_read(device, function, at) >> 8 & 0xfc;
        if (at == 0) give_up("a card sends no messages");
        message_at[n] = at;
    }
}

static void spin(unsigned turns) { __asm__ volatile("1: decl %0; jnz 1b" : "+r"(turns)); }

void start_copy(unsigned card, int is_write, uint64_t address, unsigned word, unsigned bytes)
{
    uint64_t buffer = CARD_BUFFER + 8 * word, base = registers[card];
    write64(base + CARD_SOURCE, is_write ? buffer : address);
    write64(base + CARD_TARGET, is_write ? address : buffer);
    write64(base + CARD_COUNT, bytes);
    write64(base + CARD_COMMAND, is_write ? 3 : 1);
}

void await_copy(unsigned card)
{
    unsigned turns;
    for (turns = 0; turns < 1000 && read32(registers[card] + CARD_COMMAND) & 1; turns++) spin(2000);
    if (turns == 1000) give_up("a card does not end its copy");
}

void copy(unsigned card, int is_write, uint64_t address, unsigned word, unsigned bytes)
{
    start_copy(card, is_write, address, word, bytes);
    await_copy(card);
}

/* The page of which a fault is due: the first that comes nowhere. */
static uint64_t due_fault(const struct probe *probe)
{
    if (probe->first == NOWHERE) return probe->address;
    return probe->is_two && probe->second == NOWHERE ? probe->address + 8 : NOWHERE;
}

/* A fault as the IOMMU recorded it. */
struct fault {
    unsigned function;
    uint64_t page;
    int is_there, is_write;
};

static struct fault recorded(void)
{
    struct fault fault = {0, 0, 0, 0};
    fault.is_there = vtd_fault(&fault.function, &fault.page, &fault.is_write);
    return fault;
}

/* Whether the fault that was recorded is the one that is due, or there is none where none is due. */
static int is_due(const struct probe *probe, const struct fault *fault)
{
    uint64_t due = due_fault(probe);
    if (due == NOWHERE) return !fault->is_there;
    return fault->is_there && fault->page == (due & ~0xfffULL) && fault->is_write == probe->is_write
           && fault->function == 8u * cards[probe->card].device + cards[probe->card].function;
}

/* Has a card make an access. Where the page may be accessed otherwise, QEMU records no fault if it still knows the page by that
 * access: then the access is made again once all pages were forgotten, and comes to the same. */
static void make(const struct probe *probe, unsigned word)
{
    struct fault fault;
    unsigned bytes = probe->is_two ? 16 : 8;
    copy(probe->card, probe->is_write, probe->address, word, bytes);
    fault = recorded();
    if (probe->is_half && !is_due(probe, &fault) && !vtd_forget()) {
        copy(probe->card, probe->is_write, probe->address, word, bytes);
        fault = recorded();
    }
    if (differs(is_due(probe, &fault)))
        print("%s %s at %x: %s fault is recorded (page %x, function %x)\n", cards[probe->card].name,
              probe->is_write ? "writes" : "reads", probe->address, fault.is_there ? "this" : "no", fault.page,
              (uint64_t)fault.function);
    end_of_comparison();
}

/* Says, where it is wanted, that the first word of a page arrived where it was due. */
static void show(const struct probe *probe)
{
#ifdef SHOW
    if (!probe->is_two && probe->first != NOWHERE && probe->address % 4096 == 0)
        print("seen %d %s %s %x %x\n", step, cards[probe->card].name, probe->is_write ? "writes" : "reads",
              probe->address, probe->first);
#else
    (void)probe;
#endif
}

static void compare_word(const struct probe *probe, uint64_t target)
{
    uint64_t is = *memory_at(target), due = *shadow_at(target);
    if (is == due) show(probe);
    if (differs(is == due))
        print("%s writes at %x: memory at %x has %x and should have %x\n", cards[probe->card].name, probe->address,
              target, is, due);
    end_of_comparison();
}

/* A card writes words of its buffer: each arrives where the program says, or a fault is recorded. */
static void try_write(const struct probe *probe, unsigned word)
{
    make(probe, word);
    if (probe->first != NOWHERE) *shadow_at(probe->first) = held[probe->card][word];
    if (probe->is_two && probe->second != NOWHERE) *shadow_at(probe->second) = held[probe->card][word + 1];
    if (probe->first != NOWHERE) compare_word(probe, probe->first);
    if (probe->is_two && probe->second != NOWHERE) compare_word(probe, probe->second);
}

/* A card reads words into its buffer; from where nothing answers this card reads 0. */
static void try_read(const struct probe *probe, unsigned word)
{
    make(probe, word);
    held[probe->card][word] = probe->first == NOWHERE ? 0 : *shadow_at(probe->first);
    if (probe->is_two) held[probe->card][word + 1] = probe->second == NOWHERE ? 0 : *shadow_at(probe->second);
}

void fill_card(unsigned card, const struct pages *pages)
{
    unsigned word;
    if (pages->in == NOWHERE) return;
    copy(card, 0, pages->in, 0, 8 * CARD_WORDS);
    for (word = 0; word < CARD_WORDS; word++) held[card][word] = *shadow_at(pages->in_memory + 8 * word);
}

/* Has a card write its buffer to the page that it may write, and compares words of it with what the card should have read. */
static void show_card(unsigned card, const struct pages *pages, const struct probe *const *read, unsigned used)
{
    unsigned word;
    if (pages->out == NOWHERE) return;
    copy(card, 1, pages->out, 0, 8 * CARD_WORDS);
    for (word = 0; word < CARD_WORDS; word++) {
        uint64_t is = memory_at(pages->out_memory)[word];
        *shadow_at(pages->out_memory + 8 * word) = held[card][word];
        if (word < used && read[word] != NULL && is == held[card][word]) show(read[word]);
        if (word < used && read[word] != NULL && differs(is == held[card][word]))
            print("%s reads at %x: it has %x and should have %x\n", cards[card].name, read[word]->address, is,
                  held[card][word]);
        end_of_comparison();
    }
}

/* Tries the accesses of one card of one sort, a buffer of its words at a time: those that are denied by half, or all others. */
static void try_card(const struct state *state, unsigned card, int is_write, int is_half)
{
    static const struct probe *read[CARD_WORDS + 1];
    unsigned word = 0;
    size_t n;
    for (n = 0; n < state->probe_count; n++) {
        const struct probe *probe = &state->probes[n];
        if (probe->card != card || probe->is_write != is_write || probe->is_half != is_half) continue;
        if (word == 0) {
            fill_memory();
            fill_card(card, &state->pages[card]);
        }
        read[word] = probe;
        read[word + 1] = probe->is_two ? probe : NULL;
        if (is_write) try_write(probe, word);
        else try_read(probe, word);
        word += probe->is_two ? 2 : 1;
        if (word >= CARD_WORDS - 1) {
            if (!is_write) show_card(card, &state->pages[card], read, word);
            compare_memory(is_write ? "writes" : "reads");
            word = 0;
        }
    }
    if (word != 0) {
        if (!is_write) show_card(card, &state->pages[card], read, word);
        compare_memory(is_write ? "writes" : "reads");
    }
}

/* ---- messages ---- */

/* Sends a message of a card with a handle, and waits; returns how many interrupts arrived, and the last of them. */
static unsigned send(unsigned card, uint32_t handle, int is_due, unsigned *processor, unsigned *vector)
{
    unsigned device = cards[card].device, function = cards[card].function, at = message_at[card];
    unsigned turns, n, v, count = 0;
    for (n = 0; n < MOST_PROCESSORS; n++)
        for (v = 32; v < 256; v++) arrivals[n][v] = 0;
    pci_write(device, function, at + 4, 0xfee00010u | (handle & 0x7fff) << 5);
    pci_write(device, function, at + 8, 0);
    pci_write(device, function, at + 12, 0);
    pci_write(device, function, at, pci_read(device, function, at) | 0x10000);
    write32(registers[card] + CARD_RAISE, 1);
    for (turns = 0; turns < (is_due ? 2000u : 60u) && count == 0; turns++) {
        pause();
        for (n = 0; is_due && n < MOST_PROCESSORS; n++)
            for (v = 32; v < 256; v++) count += arrivals[n][v];
    }
    for (turns = 0; turns < 20; turns++) pause();
    write32(registers[card] + CARD_QUIET, 1);
    for (count = 0, n = 0; n < MOST_PROCESSORS; n++)
        for (v = 32; v < 256; v++)
            if (arrivals[n][v] != 0) {
                count += arrivals[n][v];
                *processor = n;
                *vector = v;
            }
    return count;
}

static void try_message(const struct message *message)
{
    unsigned processor = 0, vector = 0,
             count = send(message->card, message->handle, message->vector != 0, &processor, &vector);
    int is_same =
        message->vector == 0 ? count == 0 : count == 1 && processor == message->processor && vector == message->vector;
#ifdef SHOW
    if (count == 1 && is_same)
        print("seen %d %s sends %d %x %x\n", step, cards[message->card].name, (unsigned)message->handle,
              (uint64_t)processor, (uint64_t)vector);
#endif
    if (differs(is_same))
        print("%s sends %d: %d arrive, at processor %d as %x\n", cards[message->card].name, (unsigned)message->handle,
              count, processor, (uint64_t)vector);
    end_of_comparison();
}

/* Whether a state expects this interrupt of a card's message. */
static int is_expected(const struct state *state, unsigned card, unsigned handle, unsigned processor, unsigned vector)
{
    size_t n;
    for (n = 0; state != NULL && n < state->message_count; n++) {
        const struct message *message = &state->messages[n];
        if (message->card == card && message->handle == handle)
            return message->vector == vector && message->processor == processor;
    }
    return 0;
}

void try_handle(unsigned handle, const struct state *last, const struct state *next)
{
    unsigned card;
    for (card = 0; card < card_count; card++) {
        unsigned processor = 0, vector = 0, count = send(card, handle, 0, &processor, &vector);
        int is_fine = count == 0
                      || (count == 1
                          && (is_expected(last, card, handle, processor, vector)
                              || is_expected(next, card, handle, processor, vector)));
        if (differs(is_fine))
            print("%s sends %d while its record is written: %d arrive, at processor %d as %x\n", cards[card].name,
                  handle, count, processor, (uint64_t)vector);
        end_of_comparison();
    }
}

/* ---- all ---- */

void try_cards(const struct state *state, int is_half)
{
    unsigned card;
    for (card = 0; card < card_count; card++) {
        try_card(state, card, 1, is_half);
        try_card(state, card, 0, is_half);
    }
}

void try_messages(const struct state *state)
{
    size_t n;
    for (n = 0; n < state->message_count; n++) try_message(&state->messages[n]);
    compare_memory("messages");
}

void try_state(const struct state *state)
{
    try_messages(state);
    try_cards(state, 1);
    try_cards(state, 0);
}
