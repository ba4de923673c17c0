// What edition 2 gains where keys run upward from 0. A machine's pace changes from minute to minute, so rounds on files
// of the two editions go by turns, a slice at a time, and a share is the median of the slices' shares.
#include <stdio.h>

#include "../common/grouped.h"
#include "speed_figures.h"
#include "speed_rounds.h"

enum { EDITIONS = 2, SLICES = 5, SLICE_ROUNDS = 12 };

// A call of ours: the pages that it reads in each edition, and its time in edition 2 as a share of that in edition 1.
struct gain {
    double read[EDITIONS], share;
};
static struct gain find[SIZES], put[SIZES]; // of the compared sizes

// Nanoseconds a call, by edition and slice.
static double find_time[EDITIONS][MOST_ROUNDS], put_time[EDITIONS][MOST_ROUNDS];

// Every slice puts the same keys, those that come next. Much further on, keys of edition 1 don't all move any more.
static void time_slice(struct files *files, int edition, unsigned slice) {
    const uint64_t fresh = files->fresh;
    struct cost put_cost, remove_cost;
    find_time[edition][slice] = time_find(files, true, SLICE_ROUNDS).of[OURS];
    time_put_and_remove(files, SLICE_ROUNDS, &put_cost, &remove_cost);
    put_time[edition][slice] = put_cost.of[OURS];
    files->fresh = fresh;
}

static void measure_size(int size, unsigned slices) {
    const uint32_t pages = figures[size].size.pages, cap = figures[size].cap;
    struct files files[EDITIONS] = {make_files(CONSECUTIVE, pages, cap), make_files(CONSECUTIVE_2, pages, cap)};
    for (unsigned slice = 0; slice < slices; slice++)
        for (int i = 0; i < EDITIONS; i++)
            time_slice(&files[i], i, slice);
    find[size].share = median(find_time[1], find_time[0], slices);
    put[size].share = median(put_time[1], put_time[0], slices);
    for (int i = 0; i < EDITIONS; i++) {
        find[size].read[i] = pages_read(&files[i], false);
        put[size].read[i] = pages_read(&files[i], true);
        drop_files(&files[i]);
    }
}

void measure_editions(unsigned scale) {
    for (int size = 0; size < SIZES; size++)
        if (figures[size].size.compared)
            measure_size(size, held_to(SLICES * scale));
}

void print_editions(void) {
    puts("\n### What edition 2 gains where keys run upward\n");
    puts("Ours, with finds of held keys and with puts of the numbers that come next. Rounds on files of the two "
         "editions go by turns; a share is the time in edition 2 divided by that in edition 1.\n");
    puts("| P | pages read by find: edition 1 | edition 2 | share of time | pages read by put: edition 1 | edition 2 | "
         "share of time |");
    puts("|--:|--:|--:|--:|--:|--:|--:|");
    for (int size = 0; size < SIZES; size++)
        if (figures[size].size.compared)
            printf("| %s | %.2f | %.2f | %.2f | %.2f | %.2f | %.2f |\n", grouped(figures[size].size.pages),
                   find[size].read[0], find[size].read[1], find[size].share, put[size].read[0], put[size].read[1],
                   put[size].share);
}

void print_editions_in_short(void) {
    const char *before = "\nIn short: edition 2 beside edition 1, where request numbers run upward from 0:";
    for (int size = 0; size < SIZES; size++) {
        if (!figures[size].size.compared)
            continue;
        printf("%s at %s pages a find of a held key takes %.2f of the time and reads %.2f pages instead of %.2f, a "
               "put %.2f and %.2f instead of %.2f",
               before, grouped(figures[size].size.pages), find[size].share, find[size].read[1], find[size].read[0],
               put[size].share, put[size].read[1], put[size].read[0]);
        before = ";";
    }
    puts(".");
}
