// The measuring. Batches of all sides alternate on equal copies of a file. After each round the answers have to be the
// same; the copies are compared after the last one, or where they are restored for the next, so that looking at them
// doesn't warm one side's cache.
//
// A round is one batch of each side on the same keys, which no other round uses, so that no branch is learnt by heart.
// The figures are medians over the rounds, and a ratio is the median of the rounds' ratios: what disturbs a machine
// lasts longer than a round, so it strikes all batches alike, and a minimum would pick the rounds with the easiest
// keys.
#pragma once
#include "speed.h"

enum { MOST_ROUNDS = 2048 };

// A batch of calls by one side; gives the sum of the refusals. Check, grow and shrink leave the keys
// alone.
typedef uint32_t batch(struct file *file, const uint64_t *key, uint32_t count);

// The loop stands in each batch, so that no side pays for a call through a pointer.
#define BATCH(name, call)                                                          \
    static uint32_t name(struct file *file, const uint64_t *key, uint32_t count) { \
        uint32_t sum = 0;                                                          \
        (void)key;                                                                 \
        for (uint32_t i = 0; i < count; i++)                                       \
            sum += call;                                                           \
        return sum;                                                                \
    }
#define SLIP &file->slip, sizeof file->slip
#define AREA file->area, file->bytes

// A call that is measured: the batches of the proved and the plain one, and the times of its rounds, in nanoseconds a
// batch.
struct timing {
    batch *ours, *plain;
    double of[SIDES][MOST_ROUNDS];
    unsigned rounds;
};

// One batch of each side, in an order that changes from round to round. The refusals of a batch have to sum up to what
// is expected.
void time_round(struct timing *timing, struct files *files, const uint64_t *key, uint32_t count, uint32_t expected);

// The median of the quotients of two rows of numbers, or of one row where there is no other.
double median(const double *number, const double *by, unsigned count);

// What the rounds came to, a call.
struct cost cost_of(const struct timing *timing, uint32_t calls);

// No more rounds than there is room for.
unsigned held_to(unsigned rounds);
