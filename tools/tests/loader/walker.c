/* Walks a tree of pages as docs/image.md says: a test of the page, and a start for boot code of one's own.

   usage: walker TREE WORDS < numbers of words

   TREE is a file with the pages, and WORDS how many words the tree has. It prints each word that is asked for, or the byte of
   the first bad entry on the way to it. */

#include <inttypes.h>
#include <stdio.h>
#include <stdlib.h>

static unsigned char tree[64 << 20];
static uint64_t size;

static uint64_t word_at(uint64_t byte)
{
    uint64_t word = 0;
    unsigned n;
    for (n = 8; n-- > 0;) word = word << 8 | tree[byte + n];
    return word;
}

/* The word of a number by the entries of so many levels, each chosen by nine bits; or 0 and the byte of a bad entry. */
static uint64_t walk(unsigned levels, uint64_t number, uint64_t *bad)
{
    uint64_t page = 0, place, entry;
    for (;;) {
        place = page + 8 * (number >> 9 * --levels & 511);
        entry = word_at(place);
        if (levels == 0 || entry == 0) return entry;
        page = entry - 1;
        if (page % 4096 != 0 || size < 4096 || page > size - 4096) {
            *bad = place;
            return 0;
        }
    }
}

int main(int count, char **words)
{
    FILE *file = count == 3 ? fopen(words[1], "rb") : NULL;
    uint64_t number, last, bad, word;
    unsigned levels = 1;
    if (file == NULL) return 2;
    size = fread(tree, 1, sizeof tree, file);
    for (last = strtoull(words[2], NULL, 0) - 1; last >> 9 * levels != 0;) levels++;
    while (scanf("%" SCNu64, &number) == 1) {
        bad = UINT64_MAX;
        word = walk(levels, number, &bad);
        if (bad != UINT64_MAX) printf("bad %" PRIu64 "\n", bad);
        else printf("%#" PRIx64 "\n", word);
    }
    return fclose(file);
}
