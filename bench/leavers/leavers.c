// What a register costs after a third of its records have left, before it shrinks and after, through the proved calls:
// leavers. It prints in Markdown.
#include <stdbool.h>
#include <stdio.h>
#include <stdlib.h>
#include <string.h>

#include "../common/grouped.h"
#include "../common/page.h"
#include "../common/random.h"

enum { PAGES_A_GROUP = 2, GROUPS = 8, SWEEPS = 5, EDITION = 2, START = PAGES_A_GROUP * GROUPS };
enum { SIZES = 2, MISSES = 20000 }; // files that are followed; unsuccessful searches at each moment

// Loads are counted in fifths of the 12 records that a page has room for.
enum { THREE_FIFTHS = 3 * SLOTS, FOUR_FIFTHS = 4 * SLOTS };

// A register, and the keys that were put: first those that are held, then those that have left.
struct file {
    struct reefcushion_slip slip;
    uint8_t area[MOST_PAGES * PAGE_BYTES];
    uint64_t key[MOST_PAGES * SLOTS];
    uint32_t put;
};

// What a register looks like at one moment; shrinks, and what they moved, are those since the moment before.
struct look {
    uint32_t pages, records, cap;
    double hit, miss;          // pages read in a search, on average
    uint32_t holding, spanned; // pages that hold records; pages up to the last that is grown to or holds one
    uint32_t shrinks, moved;
};
enum moment { FULL, LEFT, THREE, FOUR, MOMENTS };

static _Noreturn void stop(const char *why, uint32_t number) {
    fprintf(stderr, "leavers: %s (%u)\n", why, number);
    exit(1);
}

static void accepted(uint32_t refusal, const char *call) {
    if (refusal)
        stop(call, refusal);
}

#define SLIP &file->slip, sizeof file->slip
#define AREA file->area, page_start(file->slip.cap)

static void put_key(struct file *file, uint64_t key) {
    accepted(reefcushion_put(SLIP, AREA, key, ~key), "a put was refused");
}

static void begin(struct file *file, uint32_t pages, uint32_t cap) {
    static uint32_t row[MOST_PAGES];
    memset(&file->slip, 0, sizeof file->slip);
    file->put = 0;
    accepted(reefcushion_format_edition(SLIP, file->area, page_start(cap), PAGES_A_GROUP, GROUPS, SWEEPS, (uint16_t)cap,
                                        EDITION),
             "a format was refused");
    while (file->slip.pages < pages)
        accepted(reefcushion_grow(SLIP, AREA, row, cap), "a growth was refused");
}

static void fill(struct file *file) {
    while (5 * (file->slip.records + 1) <= FOUR_FIFTHS * (uint32_t)file->slip.pages) {
        uint64_t key = random_at(1985, file->put);
        put_key(file, key);
        file->key[file->put++] = key;
    }
}

// Any third of the records. Each goes to the end of the keys held, which then leave it out.
static void leave(struct file *file) {
    for (uint32_t left = file->put / 3; left; left--) {
        uint64_t *key = file->key, *last = &key[file->slip.records - 1];
        uint64_t *any = &key[random_at(1986, left) % file->slip.records], leaver = *any;
        *any = *last;
        *last = leaver;
        accepted(reefcushion_remove(SLIP, AREA, leaver), "a removal was refused");
    }
}

// Shrinks while one page less has at most so many fifths of its room filled.
static void shrink_to(struct file *file, uint32_t fifths, struct look *look) {
    while (file->slip.pages > START && 5 * file->slip.records <= fifths * (file->slip.pages - 1u)) {
        accepted(reefcushion_shrink(SLIP, AREA), "a shrink was refused");
        look->moved += file->slip.moved;
        look->shrinks++;
    }
}

// Every key that is held, with its value, and no other: the leavers, and keys that were never put.
static void search(struct file *file, struct look *look) {
    uint64_t hits = 0, misses = 0;
    for (uint32_t i = 0; i < file->put; i++) {
        const bool held = i < look->records;
        uint32_t refusal = reefcushion_find(SLIP, AREA, file->key[i]);
        if (refusal != (held ? REEFCUSHION_ACCEPTED : REEFCUSHION_ABSENT) ||
            file->slip.value != (held ? ~file->key[i] : 0))
            stop("a search gave another answer than it should", refusal);
        hits += held ? file->slip.read : 0;
    }
    for (uint32_t i = 0; i < MISSES; i++) {
        if (reefcushion_find(SLIP, AREA, random_at(1985, file->put + i)) != REEFCUSHION_ABSENT)
            stop("a key that was never put isn't absent", i);
        misses += file->slip.read;
    }
    look->hit = (double)hits / look->records;
    look->miss = (double)misses / MISSES;
}

// As there is one image only, a file of this size that never was any larger and got the same records is the same bytes.
static void must_be_as_laid(const struct file *shrunk) {
    static struct file laid;
    begin(&laid, shrunk->slip.pages, shrunk->slip.cap);
    for (uint32_t i = 0; i < shrunk->slip.records; i++)
        put_key(&laid, shrunk->key[i]);
    if (memcmp(&laid.slip, &shrunk->slip, offsetof(struct reefcushion_slip, value)) ||
        memcmp(laid.area, shrunk->area, page_start(laid.slip.cap)))
        stop("the file differs from one laid at its size", shrunk->slip.pages);
}

static void look_at(struct file *file, struct look *look) {
    look->pages = look->spanned = file->slip.pages;
    look->records = file->slip.records;
    look->cap = file->slip.cap;
    for (uint32_t page = 0; page < look->cap; page++)
        if (used_on(file->area + page_start(page))) {
            look->holding++;
            look->spanned = page < look->spanned ? look->spanned : page + 1;
        }
    search(file, look);
    accepted(reefcushion_check(SLIP, AREA), "a check was refused");
    if (file->slip.read != look->cap)
        stop("a check didn't read all pages lent", file->slip.read);
    must_be_as_laid(file);
}

static void follow(uint32_t pages, uint32_t cap, struct look look[MOMENTS]) {
    static struct file file;
    begin(&file, pages, cap);
    fill(&file);
    look_at(&file, &look[FULL]);
    leave(&file);
    look_at(&file, &look[LEFT]);
    shrink_to(&file, THREE_FIFTHS, &look[THREE]);
    look_at(&file, &look[THREE]);
    shrink_to(&file, FOUR_FIFTHS, &look[FOUR]);
    look_at(&file, &look[FOUR]);
}

static void print_head(void) {
    puts("## After the leavers\n");
    printf("What a register gains by shrinking after many of its records have left. A file at load 0.8 (random keys, "
           "n0 %d, N %d, s %d, edition %d) loses any third of its records, and is looked at four times: before they "
           "leave; when they have left; when it has shrunk by the header's rule, while one page less is filled to "
           "three fifths at most; and when it has shrunk back to the load that it had, while one page less is filled "
           "to four fifths at most. All is done by the proved calls.\n\n",
           PAGES_A_GROUP, GROUPS, SWEEPS, EDITION);
    printf("Each time every record that is held is sought once, and has to be found; the leavers and %s keys that "
           "were never put have to be absent, and the latter are the unsuccessful searches of the table. Check has to "
           "accept the file, and it has to be the same bytes as a file that was only ever grown to this size and got "
           "the same records.\n\n",
           grouped(MISSES));
    puts("Bytes to compare are those that two sites with such a file lay side by side: 256 for each page that is grown "
         "to, whether it holds records or not, and for each page behind these that holds what overflows. The pages "
         "lent behind those are empty and not counted. Shrinks, and how often they moved a record to another page, are "
         "those since the line above.\n");
}

static void print_row(const struct look *look, const char *moment) {
    printf("| %s | %s | %s | %s | %.2f | %.3f | %.3f | %s | %s | %s | %s | %s |\n", grouped(look->cap), moment,
           grouped(look->pages), grouped(look->records), (double)look->records / (SLOTS * look->pages), look->hit,
           look->miss, grouped(look->cap), grouped(look->holding), grouped(look->spanned * PAGE_BYTES),
           grouped(look->shrinks), grouped(look->moved));
}

static void print_table(const struct look look[SIZES][MOMENTS]) {
    static const char *const names[MOMENTS] = {"before they leave", "a third has left", "shrunk to three fifths",
                                               "shrunk to four fifths"};
    puts("| lent | moment | P | records | load | pages read: successful search | unsuccessful search | check | "
         "pages that hold records | bytes to compare | shrinks | moved |");
    puts("|--:|---|--:|--:|--:|--:|--:|--:|--:|--:|--:|--:|");
    for (int size = 0; size < SIZES; size++)
        for (int moment = 0; moment < MOMENTS; moment++)
            print_row(&look[size][moment], names[moment]);
}

static void print_meaning(void) {
    puts("\nWhat it means. Few pages are empty when a third of the records has left; all are emptier. So searches gain "
         "nothing by a shrink: they read hardly more than one page before it, and at load 0.8 again about as many as "
         "before the leaving. What gains is whatever goes over the whole file: back at that load, a third fewer pages "
         "hold records and have to be compared, copied or kept.\n");
    puts("A check reads all pages lent, and so do grow and shrink; a shrink changes nothing about that, since as many "
         "pages stay lent. To lend fewer, the file has to be made anew: formatted in a smaller area, grown to the same "
         "P, and the records put there. And each shrink checks the whole file first, so it is work for a quiet hour "
         "after the leaving and not for every removal. Shrunk to three fifths, the file can take a third more records "
         "before a growth is due; shrunk to four fifths, the next few make it due.");
}

static void print_in_short(const struct look look[MOMENTS]) {
    const struct look *full = &look[FULL], *left = &look[LEFT], *four = &look[FOUR];
    printf("\nIn short: after a third of the records has left a file of %s pages at load 0.8, %s shrinks bring it to "
           "%s pages and that load again: two sites compare %s bytes instead of %s, a successful search reads %.2f "
           "pages instead of %.2f (%.2f before the leaving), and a check reads the %s pages lent, as ever.\n",
           grouped(full->pages), grouped(look[THREE].shrinks + four->shrinks), grouped(four->pages),
           grouped(four->spanned * PAGE_BYTES), grouped(left->spanned * PAGE_BYTES), four->hit, left->hit, full->hit,
           grouped(full->cap));
}

int main(void) {
    static const uint32_t pages[SIZES] = {64, 1024};
    static struct look look[SIZES][MOMENTS];
    for (int size = 0; size < SIZES; size++)
        follow(pages[size], pages[size] + pages[size] / 4, look[size]);
    print_head();
    print_table(look);
    print_meaning();
    print_in_short(look[SIZES - 1]);
    return 0;
}
