// Files filled through the product's calls.
#include <stdio.h>
#include <stdlib.h>
#include <string.h>

#include "paper.h"

_Noreturn void stop(const char *why, long number) {
    fprintf(stderr, "paper: %s (%ld)\n", why, number);
    exit(1);
}

static void accepted(uint32_t refusal, const char *call) {
    if (refusal != 0)
        stop(call, (long)refusal);
}

// A fresh file of so many groups, with so many pages lent.
static void format_as(struct file *file, struct kind kind, int groups, uint16_t cap, uint16_t edition) {
    memset(&file->slip, 0, sizeof file->slip);
    file->kind = kind;
    accepted(reefcushion_format_edition(&file->slip, sizeof file->slip, file->area, page_start(cap), (uint16_t)kind.n0,
                                        (uint16_t)groups, (uint16_t)kind.sweeps, cap, edition),
             "format is refused");
}

void format_file(struct file *file, struct kind kind, uint64_t loading) {
    format_as(file, kind, START / kind.n0, CAP, 1);
    file->loading = loading;
}

static void grow_page(struct file *file) {
    static uint32_t row[MOST_PAGES];
    accepted(reefcushion_grow(&file->slip, sizeof file->slip, file->area, lent_bytes(file), row, file->slip.cap),
             "grow is refused");
}

// The product tells when the load passes 0.8. For other loads the harness goes by the same rule in whole numbers.
static bool over_load(const struct file *file) {
    const struct reefcushion_slip *slip = &file->slip;
    if (file->kind.hundredths == 80)
        return reefcushion_due(slip, sizeof *slip) == 1;
    return 100 * slip->records > (uint32_t)(file->kind.hundredths * SLOTS * slip->pages);
}

// Puts the loading's next keys until a growth is due. A record's value is its place in the loading.
static void fill(struct file *file) {
    while (!over_load(file)) {
        uint32_t place = file->slip.records;
        uint64_t key = key_at(file->loading, place);
        accepted(reefcushion_put(&file->slip, sizeof file->slip, file->area, lent_bytes(file), key, place),
                 "put is refused");
    }
}

// Fills an empty file that has grown already. Check has to agree.
static void fill_at_once(struct file *file) {
    fill(file);
    accepted(reefcushion_check(&file->slip, sizeof file->slip, file->area, lent_bytes(file)), "check is refused");
}

// The state of an empty file that was grown to each size, which is the same for every load. Its pages are the same at
// every size, so the states are all that is kept.
static const struct reefcushion_slip *grown_empty(struct kind kind, int pages) {
    static struct reefcushion_slip states[MOST_N0 + 1][MOST_SWEEPS + 1][2 * FIRST + 1];
    static struct file empty;
    struct reefcushion_slip *of_kind = states[kind.n0][kind.sweeps];
    if (of_kind[START].pages == 0) {
        format_file(&empty, kind, 0);
        for (of_kind[START] = empty.slip; empty.slip.pages < 2 * FIRST; of_kind[empty.slip.pages] = empty.slip)
            grow_page(&empty);
    }
    return &of_kind[pages];
}

// Makes the file of this size by growing first and filling then. As there is one image only, it is the very file that
// growing whenever it is due gives.
void lay_file(struct file *file, struct kind kind, uint64_t loading, int pages) {
    format_file(file, kind, loading);
    file->slip = *grown_empty(kind, pages);
    fill_at_once(file);
}

// The same with keys that run upward, from sixteen pages on and with all pages lent that there can be.
void lay_upward(struct file *file, uint16_t edition, int pages) {
    format_as(file, (struct kind){2, 5, 80}, 8, MOST_PAGES, edition);
    file->loading = UPWARD;
    while (file->slip.pages < pages)
        grow_page(file);
    fill_at_once(file);
}

// Fills the file and grows it page by page, whenever that is due, to this size.
void grow_file(struct file *file, int pages) {
    fill(file);
    while (file->slip.pages < pages) {
        grow_page(file);
        fill(file);
    }
}

void must_be_same(const struct file *left, const struct file *right) {
    if (memcmp(&left->slip, &right->slip, offsetof(struct reefcushion_slip, value)) != 0)
        stop("a grown file's state differs from the state of the file laid at its size", left->slip.pages);
    if (memcmp(left->area, right->area, lent_bytes(left)) != 0)
        stop("a grown file's bytes differ from those of the file laid at its size", left->slip.pages);
}

int records_on(const struct file *file, int page) {
    return (int)used_on(file->area + page_start((uint32_t)page));
}
