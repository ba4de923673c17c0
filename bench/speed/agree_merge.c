// Merges of two files, made to both sides, and one by one as puts where both files pass their checks.
#include <stdio.h>
#include <stdlib.h>

#include "../common/grouped.h"
#include "../common/home.h"
#include "agree_pair.h"

// Two files as a side is lent them, and its row, with more counts than the largest file has pages, so that writing past
// the end is seen.
struct pair {
    struct lent file[2];
    uint32_t row[MOST + 8];
};
static struct pair lent, ours_pair, plain_pair; // as they are lent at first, and to each side
unsigned long merges_made;
static unsigned long made_by_puts, adding, added, adding_none, both_ways, alike;

// What is asked beside the files: which of them is the living one, and how many counts its row has.
struct terms {
    int living;
    size_t counts;
};

static uint32_t ask_ours(const struct terms *terms, size_t slip_bytes, size_t other_bytes) {
    struct lent *living = &ours_pair.file[terms->living];
    const struct lent *other = &ours_pair.file[!terms->living];
    return reefcushion_merge(&living->slip, slip_bytes, living->area, living->bytes, &other->slip, other_bytes,
                             other->area, other->bytes, terms->counts ? ours_pair.row : NULL, terms->counts);
}

static uint32_t ask_plain(const struct terms *terms, bool in_step) {
    struct lent *living = &plain_pair.file[terms->living];
    const struct lent *other = &plain_pair.file[!terms->living];
    baseline_in_step = in_step;
    return baseline_merge(&living->slip, living->area, living->bytes, &other->slip, other->area, other->bytes,
                          terms->counts ? plain_pair.row : NULL, terms->counts);
}

// Whatever stands in the rows before, on both sides.
static void fill_pairs(void) {
    for (size_t i = 0; i < sizeof lent.row / sizeof lent.row[0]; i++)
        lent.row[i] = (uint32_t)any();
    ours_pair = plain_pair = lent;
}

static void compare_pairs(int row, uint32_t left, uint32_t right) {
    if (left != right)
        differ(row, "the result", left, right);
    for (int i = 0; i < 2; i++) {
        const struct lent *l = &ours_pair.file[i], *r = &plain_pair.file[i];
        compare_bytes(row, i ? "the second slip" : "the first slip", &l->slip, &r->slip, sizeof r->slip);
        compare_bytes(row, i ? "the second area" : "the first area", l->area, r->area, sizeof r->area);
    }
    compare_bytes(row, "the row", ours_pair.row, plain_pair.row, sizeof plain_pair.row);
}

// What comes of the living file when the other's records are put there one by one; how many records of both have each
// home, by the letters of the documents; and what a merge is refused with then, and the lowest clashing key.
struct singles {
    struct lent file;
    uint32_t row[MOST], refusal;
    uint64_t lowest;
};

static void note_put(struct singles *singles, uint32_t refusal, uint64_t key) {
    const bool clashed = singles->refusal == REEFCUSHION_CLASH;
    if (refusal == REEFCUSHION_ACCEPTED || refusal == REEFCUSHION_NO_ROOM)
        singles->row[home_of(&singles->file.slip, key)]++;
    if (refusal == REEFCUSHION_NO_ROOM && !clashed)
        singles->refusal = REEFCUSHION_NO_ROOM;
    if (refusal == REEFCUSHION_CLASH) {
        singles->lowest = clashed && singles->lowest < key ? singles->lowest : key;
        singles->refusal = REEFCUSHION_CLASH;
    }
}

// A living record is as good as put already. What is held isn't counted again.
static void put_each(struct singles *singles, const struct lent *from, bool living) {
    struct lent *file = &singles->file;
    for (uint32_t address = 0; address < from->slip.cap; address++) {
        const uint8_t *page = from->area + page_start(address), *slot = page + HEAD_BYTES;
        for (uint32_t i = 0; i < used_on(page); i++, slot += SLOT_BYTES) {
            const uint64_t key = load64(slot + 4), value = load64(slot + 12);
            note_put(singles, living ? 0 : baseline_put(&file->slip, file->area, file->bytes, key, value), key);
        }
    }
}

// The state and the pages have to be the same, and the row in all that it holds.
static void require_like_puts(const struct terms *terms) {
    static struct singles singles;
    const struct lent *merged = &plain_pair.file[terms->living];
    singles = (struct singles){.file = lent.file[terms->living]};
    put_each(&singles, &lent.file[terms->living], true);
    put_each(&singles, &lent.file[!terms->living], false);
    if (merged->slip.refusal != singles.refusal)
        differ(MERGE, "the result, and that of puts", merged->slip.refusal, singles.refusal);
    if (merged->slip.value != singles.lowest)
        differ(MERGE, "the clashing key, and that of puts", merged->slip.value, singles.lowest);
    if (!singles.refusal) {
        compare_bytes(MERGE, "the state, and that of puts", &merged->slip, &singles.file.slip,
                      offsetof(struct reefcushion_slip, value));
        compare_bytes(MERGE, "the area, and that of puts", merged->area, singles.file.area, sizeof merged->area);
    }
    if (singles.refusal != REEFCUSHION_CLASH)
        compare_bytes(MERGE, "the row, and that of puts", plain_pair.row, singles.row,
                      sizeof singles.row[0] * merged->slip.cap);
    made_by_puts++;
}

static void see_added(uint32_t records) {
    adding += records > 0;
    adding_none += records == 0;
    added += records;
}

// One merge by both sides; gives the refusal.
static uint32_t ask_pair(const struct terms *terms) {
    const bool in_step = one_in(2);
    const struct reefcushion_slip *slip = &plain_pair.file[terms->living].slip;
    fill_pairs();
    const uint32_t left = ask_ours(terms, sizeof *slip, sizeof *slip), right = ask_plain(terms, in_step);
    const int row = slip->file == 2 ? MERGE_SECOND : MERGE;
    compare_pairs(row, left, right);
    see(row, right, in_step);
    if (right == REEFCUSHION_ACCEPTED || right == REEFCUSHION_NO_ROOM || right == REEFCUSHION_CLASH)
        require_like_puts(terms);
    if (right == REEFCUSHION_ACCEPTED)
        see_added(slip->records - lent.file[terms->living].slip.records);
    merges_made++;
    return right;
}

// Slips that are a byte too short or too long: nothing is done.
static void ask_with_wrong_lengths(const struct terms *terms) {
    for (int wrong = 0; wrong < 2; wrong++) {
        size_t length[2] = {sizeof plain.slip, sizeof plain.slip};
        length[wrong] += one_in(2) ? 1 : (size_t)-1;
        compare_pairs(MERGE, ask_ours(terms, length[0], length[1]), REEFCUSHION_NO_SLIP);
    }
}

// Now and then once more with a row that is too short or too long or nowhere.
static bool ask_with_rows(int living, struct lent *merged) {
    const uint32_t cap = lent.file[living].slip.cap;
    struct terms terms = {living, cap < MOST ? cap : MOST};
    const bool accepted = ask_pair(&terms) == REEFCUSHION_ACCEPTED;
    *merged = plain_pair.file[living];
    if (one_in(3)) {
        const size_t rows[3] = {0, terms.counts ? terms.counts - 1 : 1, terms.counts + 1};
        terms.counts = rows[below(3)];
        ask_pair(&terms);
    }
    if (one_in(4))
        ask_with_wrong_lengths(&terms);
    return accepted;
}

// Two files that were merged into each other hold the same records, and are the same bytes where all their parameters
// are the same.
static void require_alike(const struct lent merged[2]) {
    const struct reefcushion_slip *l = &merged[0].slip, *r = &merged[1].slip;
    struct reefcushion_comparison told;
    baseline_compare(l, merged[0].area, merged[0].bytes, r, merged[1].area, merged[1].bytes, NULL, 0, &told);
    const bool like = !memcmp(l, r, offsetof(struct reefcushion_slip, value));
    if (told.wanted != sizeof(struct reefcushion_closing) ||
        (like && memcmp(merged[0].area, merged[1].area, merged[0].bytes))) {
        fputs("two files that were merged into each other aren't alike\n", stderr);
        exit(1);
    }
    both_ways++;
    alike += like;
}

void ask_merges(bool whole) {
    static struct lent merged[2];
    lend_pair(lent.file, whole);
    const bool first = ask_with_rows(0, &merged[0]), second = ask_with_rows(1, &merged[1]);
    if (first && second)
        require_alike(merged);
}

bool tell_merges(void) {
    printf("Of two files one was merged into the other %s times. Where neither of them nor the row was refused, %s "
           "times, the records were put one by one as well: the file, the row, the refusal and the clashing key had to "
           "be what comes of that. %s merges added %s records, and %s added none. %s times each of the two was merged "
           "into the other, and they had to hold the same then; %s times their parameters were the same, and they had "
           "to be the same bytes.\n\n",
           grouped((double)merges_made), grouped((double)made_by_puts), grouped((double)adding), grouped((double)added),
           grouped((double)adding_none), grouped((double)both_ways), grouped((double)alike));
    return adding && adding_none && both_ways > alike && alike;
}
