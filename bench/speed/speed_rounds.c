// Batches timed in rounds, and what the rounds came to.
#include <stdlib.h>
#include <time.h>

#include "speed_rounds.h"

static double now(void) {
    struct timespec time;
    clock_gettime(CLOCK_MONOTONIC, &time);
    return (double)time.tv_sec * 1e9 + (double)time.tv_nsec;
}

static double timed(batch *run, struct file *file, const uint64_t *key, uint32_t count, uint32_t expected) {
    double begin = now();
    uint32_t sum = run(file, key, count);
    double end = now();
    if (sum != expected)
        stop("a call gave another answer than the one to be measured");
    return end - begin;
}

void time_round(struct timing *timing, struct files *files, const uint64_t *key, uint32_t count, uint32_t expected) {
    static const enum side orders[6][SIDES] = {{OURS, C, IN_STEP}, {IN_STEP, C, OURS}, {C, OURS, IN_STEP},
                                               {IN_STEP, OURS, C}, {C, IN_STEP, OURS}, {OURS, IN_STEP, C}};
    const unsigned round = timing->rounds++;
    for (int i = 0; i < SIDES; i++) {
        enum side side = orders[round % 6][i];
        baseline_in_step = side == IN_STEP;
        batch *run = side == OURS ? timing->ours : timing->plain;
        timing->of[side][round] = timed(run, &files->of[side], key, count, expected);
    }
    baseline_in_step = false;
    require_same_slips(files);
}

static int by_size(const void *left, const void *right) {
    double l = *(const double *)left, r = *(const double *)right;
    return (l > r) - (l < r);
}

double median(const double *number, const double *by, unsigned count) {
    static double sorted[MOST_ROUNDS];
    for (unsigned i = 0; i < count; i++)
        sorted[i] = by ? number[i] / by[i] : number[i];
    qsort(sorted, count, sizeof *sorted, by_size);
    return count % 2 ? sorted[count / 2] : (sorted[count / 2 - 1] + sorted[count / 2]) / 2;
}

struct cost cost_of(const struct timing *timing, uint32_t calls) {
    struct cost cost;
    for (int side = 0; side < SIDES; side++) {
        cost.of[side] = median(timing->of[side], NULL, timing->rounds) / calls;
        cost.ratio[side] = median(timing->of[OURS], timing->of[side], timing->rounds);
    }
    return cost;
}

unsigned held_to(unsigned rounds) {
    return rounds > MOST_ROUNDS ? MOST_ROUNDS : rounds;
}
