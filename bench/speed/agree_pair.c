// Two files to compare or to merge: the file at hand and what was kept of it or of others before, or itself with some
// records changed, or the same records in a file of other parameters, or files that have nothing to do with it.
#include <stdio.h>
#include <stdlib.h>

#include "agree_pair.h"

enum { KEPT = 4, NO_ROOMS = 20 }; // so many keys find no room before a file counts as full
static struct lent kept[KEPT];

static void lend_file_at_hand(struct lent *file) {
    file->slip = plain.slip;
    file->bytes = page_start(plain.slip.cap < MOST ? plain.slip.cap : MOST);
    memcpy(file->area, plain.area, sizeof plain.area);
}

void keep_file(void) {
    lend_file_at_hand(&kept[below(KEPT)]);
}

// The value that the file at hand holds for a key, or this one where it has none.
static uint64_t value_at_hand(uint64_t key, uint64_t otherwise) {
    struct reefcushion_slip slip = plain.slip;
    return baseline_find(&slip, plain.area, page_start(slip.cap), key) ? otherwise : slip.value;
}

// Puts and removals, as far as the file takes them; and where it may clash with the file at hand, other values for held
// keys.
static void change_some(struct lent *file, uint32_t changes, bool may_clash) {
    for (; changes; changes--) {
        struct reefcushion_put_record put = any_put();
        if (one_in(4))
            put.key = any();
        if (!may_clash)
            put.value = value_at_hand(put.key, put.value);
        if (!one_in(3))
            baseline_remove(&file->slip, file->area, file->bytes, put.key);
        if (!one_in(3))
            baseline_put(&file->slip, file->area, file->bytes, put.key, put.value);
    }
}

// An empty file of any parameters and of at least so many lent pages. It is the same bytes at every size, so it needn't
// be grown to one.
static void begin_other(struct lent *file, uint32_t least) {
    const uint32_t n0 = 1 + below(4), groups = 1 + below(one_in(2) ? 64 : 4), start = n0 * groups;
    const uint32_t from = start < least ? least : start, cap = from + below(MOST - from + 1) / 8;
    file->bytes = page_start(cap);
    if (baseline_format(&file->slip, file->area, file->bytes, (uint16_t)n0, (uint16_t)groups, (uint16_t)(1 + below(8)),
                        (uint16_t)cap, (uint16_t)(1 + below(2)))) {
        fputs("no other file beside the one at hand\n", stderr);
        exit(1);
    }
    file->slip.pages += (uint16_t)below(cap - start + 1);
}

// The records of a file in a file of other parameters, but for those that find no room there.
static void refile(struct lent *file) {
    static struct lent other;
    begin_other(&other, file->slip.cap);
    for (uint32_t address = 0; address < file->slip.cap; address++) {
        uint8_t *page = file->area + page_start(address);
        for (uint32_t i = 0; i < used_on(page); i++)
            baseline_put(&other.slip, other.area, other.bytes, load64(slot_of(page, i) + 4),
                         load64(slot_of(page, i) + 12));
    }
    *file = other;
}

// An empty file of the parameters of the one at hand, or of any.
static void lend_empty_file(struct lent *file) {
    if (one_in(2)) {
        begin_other(file, 1);
        return;
    }
    lend_file_at_hand(file);
    baseline_format(&file->slip, file->area, file->bytes, plain.slip.n0, plain.slip.groups, plain.slip.sweeps,
                    plain.slip.cap, (uint16_t)(plain.slip.edition_less_1 + 1));
    file->slip.pages = plain.slip.pages;
}

// A file of keys that nothing else uses, until it is full or some time before.
static void lend_strangers(struct lent *file) {
    lend_empty_file(file);
    const uint32_t most = one_in(2) ? SLOTS * MOST : below(SLOTS * file->slip.cap);
    for (uint32_t left = NO_ROOMS; left && file->slip.records < most;)
        left -= baseline_put(&file->slip, file->area, file->bytes, any(), any()) == REEFCUSHION_NO_ROOM;
}

// What goes with the file at hand. Where that is damaged its records aren't looked at.
static void lend_other_file(struct lent *file, bool whole) {
    const uint32_t way = below(whole ? 8 : 2);
    const bool under_other_parameters = way == 4 || way == 5;
    switch (way) {
    case 0: *file = kept[below(KEPT)]; return;
    case 6: lend_empty_file(file); return;
    case 7: lend_strangers(file); return;
    default: lend_file_at_hand(file); break;
    }
    if (under_other_parameters)
        refile(file);
    if (way > 1 && !(under_other_parameters && one_in(3)))
        change_some(file, one_in(4) ? below(SLOTS * file->slip.cap) : 1 + below(20), one_in(2));
}

// The page behind the last may be damaged too: nobody is to look at it.
static void damage_file(struct lent *file) {
    switch (below(3)) {
    case 0: file->bytes = one_in(2) && file->bytes ? file->bytes - 1 - below(PAGE_BYTES) : file->bytes + 1; break;
    case 1: damage_slip(&file->slip); break;
    default: damage_page(file->area + page_start(below((uint32_t)(file->bytes / PAGE_BYTES) + 1))); break;
    }
}

void lend_pair(struct lent file[2], bool whole) {
    const int at_hand = one_in(2);
    lend_file_at_hand(&file[at_hand]);
    lend_other_file(&file[!at_hand], whole);
    for (int i = 0; i < 2; i++)
        if (one_in(4))
            damage_file(&file[i]);
}
