// What differs between two files: how long ours takes to tell it, beside C and beside a check of each of the two.
#include <stdio.h>
#include <stdlib.h>

#include "../common/grouped.h"
#include "speed_figures.h"
#include "speed_pair.h"

enum { PAGES = MOST_PAGES, RECORDS = 48 * PAGES / 5, EACH = RECORDS / 100 / 3, COMPARE_ROUNDS = 6 };
enum { LIST_BYTES = 2 * SLOT_BYTES * RECORDS + sizeof(struct reefcushion_closing) };

// What the first file is compared with.
enum { SAME, CHANGED, STRANGERS, REFILED, SECONDS };
static const char *const second_names[SECONDS] = {"the same bytes", "1 record in 100 differs", "no key in common",
                                                  "the same records, other parameters, edition 2"};

static uint8_t *list[SIDES];
static struct reefcushion_comparison answer[SIDES];

// How many records differ, what a comparison takes, and how many checks of both files that is worth.
static struct compared {
    uint32_t differences;
    struct cost cost, to_checks;
} compared[SECONDS];

static uint32_t compare_ours(const struct file *file) {
    const struct file *other = &second.of[OURS];
    return reefcushion_compare(SLIP, AREA, &other->slip, sizeof other->slip, other->area, other->bytes, list[OURS],
                               LIST_BYTES, &answer[OURS], sizeof answer[OURS]);
}

static uint32_t compare_plain(const struct file *file) {
    const enum side side = plain_side();
    const struct file *other = &second.of[side];
    return baseline_compare(&file->slip, AREA, &other->slip, other->area, other->bytes, list[side], LIST_BYTES,
                            &answer[side]);
}

BATCH(ours_compare, compare_ours(file))
BATCH(plain_compare, compare_plain(file))

static struct files same_records(const struct files *from) {
    struct files files = files_of(from->style, new_file(PAGES));
    copy_file(&files.first, &from->first);
    memcpy(files.held, from->held, sizeof files.held[0] * from->held_count);
    files.held_count = from->held_count;
    files.fresh = from->fresh;
    return files;
}

// As many records are gone as are new and as have another value.
static struct files some_changed(const struct files *from) {
    struct files files = same_records(from);
    uint64_t gone[2 * EACH], fresh[EACH];
    take_out(&files, gone, 2 * EACH);
    for (int i = 0; i < EACH; i++)
        put_into(&files.first, gone[i], gone[i]);
    next_with_room(&files, fresh, EACH);
    for (int i = 0; i < EACH; i++)
        put_into(&files.first, fresh[i], ~fresh[i]);
    return files;
}

// As many records of other keys, those that come next.
static struct files strangers(const struct files *from) {
    struct files files = files_of(from->style, empty_like_others());
    files.fresh = from->fresh;
    fill(&files, RECORDS);
    return files;
}

static struct files refiled(const struct files *from) {
    struct files files = files_of(from->style, empty_unlike_others());
    for (uint32_t i = 0; i < from->held_count; i++)
        put_into(&files.first, from->held[i], ~from->held[i]);
    return files;
}

static void require_same_lists(void) {
    for (int side = C; side < SIDES; side++)
        if (memcmp(&answer[OURS], &answer[side], sizeof answer[side]) ||
            memcmp(list[OURS], list[side], answer[side].length))
            stop("two sides gave different lists");
}

// Each round checks both files and then compares them.
static struct compared time_compare(struct files *first, unsigned rounds) {
    static struct timing compare = {.ours = ours_compare, .plain = plain_compare};
    struct timing *checks = &checks_of_both;
    compare.rounds = checks->rounds = 0;
    restore(&second);
    for (rounds = held_to(rounds); rounds; rounds--) {
        time_round(checks, first, NULL, 1, 0);
        time_round(&compare, first, NULL, 1, 0);
        require_same_lists();
    }
    require_same_files(first);
    require_same_files(&second);
    struct reefcushion_closing closing;
    memcpy(&closing, list[OURS] + answer[OURS].length - sizeof closing, sizeof closing);
    struct compared told = {.differences = closing.only_first + closing.only_second + closing.unlike,
                            .cost = cost_of(&compare, 1)};
    for (int side = 0; side < SIDES; side++)
        told.to_checks.of[side] = median(compare.of[side], checks->of[side], compare.rounds);
    return told;
}

void measure_comparisons(unsigned scale) {
    static struct files (*const make[SECONDS])(const struct files *) = {same_records, some_changed, strangers, refiled};
    static const uint32_t differences[SECONDS] = {0, 3 * EACH, 2 * RECORDS, 0};
    struct files first = make_files(RANDOM, PAGES, PAGES);
    for (int side = 0; side < SIDES; side++)
        if (!(list[side] = calloc(1, LIST_BYTES)))
            stop("no memory");
    for (int i = 0; i < SECONDS; i++) {
        second = make[i](&first);
        compared[i] = time_compare(&first, COMPARE_ROUNDS * scale);
        if (compared[i].differences != differences[i])
            stop("a comparison told of too many or too few records");
        drop_files(&second);
    }
    for (int side = 0; side < SIDES; side++)
        free(list[side]);
    drop_files(&first);
}

void print_comparisons(unsigned scale) {
    puts("\n### A comparison of two files, in microseconds and in checks of both\n");
    printf("Two files of %s pages and %s records each, with random keys. Compare checks both and seeks each record of "
           "the first in the second. Where something differs, it seeks again from both sides to write what does, and "
           "sorts that by key. Where 1 record in 100 differs, a third of them is only in the first file, a third only "
           "in the second, and a third in both with two values. Each of the %s rounds times a check of both files and "
           "then a comparison; behind its times stands how many checks of both files it is worth.\n\n",
           grouped(PAGES), grouped(RECORDS), grouped(held_to(COMPARE_ROUNDS * scale)));
    puts("| the second file | differences | ours | C | ours / C | C in step | ours / C in step | in checks: ours | C | "
         "C in step |");
    puts("|---|--:|--:|--:|--:|--:|--:|--:|--:|--:|");
    for (int i = 0; i < SECONDS; i++) {
        const struct cost *cost = &compared[i].cost;
        const double *checks = compared[i].to_checks.of;
        printf("| %s | %s | %s | %s | %.2f | %s | %.2f | %.2f | %.2f | %.2f |\n", second_names[i],
               grouped(compared[i].differences), grouped(cost->of[OURS] / 1000), grouped(cost->of[C] / 1000),
               cost->ratio[C], grouped(cost->of[IN_STEP] / 1000), cost->ratio[IN_STEP], checks[OURS], checks[C],
               checks[IN_STEP]);
    }
}

void print_comparisons_in_short(void) {
    const struct compared *same = &compared[SAME], *changed = &compared[CHANGED], *strange = &compared[STRANGERS];
    printf("\nIn short: to tell what differs between two files of %s pages with %s records each takes as long as %.2f "
           "checks of both where they hold the same, %.2f where 1 record in 100 differs and %.2f where all do: %.2f, "
           "%.2f and %.2f times what C takes, and %.2f, %.2f and %.2f times what C in step takes.\n",
           grouped(PAGES), grouped(RECORDS), same->to_checks.of[OURS], changed->to_checks.of[OURS],
           strange->to_checks.of[OURS], same->cost.ratio[C], changed->cost.ratio[C], strange->cost.ratio[C],
           same->cost.ratio[IN_STEP], changed->cost.ratio[IN_STEP], strange->cost.ratio[IN_STEP]);
}
