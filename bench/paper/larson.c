// Larson's figures: pages read (his disk accesses) in successful and unsuccessful searches, averages over a full
// expansion. They are facts of his paper (ACM Transactions on Database Systems 10, 1, 1985), Tables I and II; his
// report CS-83-38 prints the same numbers.
#include <stddef.h>

#include "paper.h"

// Table, then pages a group, sweeps and load in hundredths, then records a page. Both tables tell of page 20, n0 2,
// load 0.8 and five sweeps: the one says 1.59, the other 1.60.
static const struct larson figures[] = {
    {1, {2, 1, 80}, 20, 1.48, 9.66},
    {1, {2, 2, 80}, 20, 1.07, 1.92},
    {1, {2, 3, 80}, 20, 1.06, 1.65},
    {1, {2, 4, 80}, 20, 1.06, 1.59},
    {1, {2, 5, 80}, 20, 1.06, 1.59},
    {1, {2, 6, 80}, 20, 1.06, 1.61},
    {1, {2, 8, 80}, 20, 1.07, 1.66},
    {1, {2, 10, 80}, 20, 1.07, 1.70},

    {2, {2, 5, 70}, 10, 1.06, 1.40},
    {2, {2, 5, 70}, 20, 1.02, 1.17},
    {2, {2, 5, 70}, 40, 1.01, 1.07},
    {2, {2, 5, 80}, 10, 1.14, 2.22},
    {2, {2, 5, 80}, 20, 1.06, 1.60},
    {2, {2, 5, 80}, 40, 1.03, 1.32},
    {2, {2, 5, 90}, 10, 1.51, 9.93},
    {2, {2, 5, 90}, 20, 1.25, 5.49},
    {2, {2, 5, 90}, 40, 1.13, 3.42},

    {2, {3, 5, 70}, 10, 1.05, 1.36},
    {2, {3, 5, 70}, 20, 1.01, 1.13},
    {2, {3, 5, 70}, 40, 1.00, 1.03},
    {2, {3, 5, 80}, 10, 1.12, 2.10},
    {2, {3, 5, 80}, 20, 1.05, 1.49},
    {2, {3, 5, 80}, 40, 1.02, 1.22},
    {2, {3, 5, 90}, 10, 1.40, 6.81},
    {2, {3, 5, 90}, 20, 1.18, 3.85},
    {2, {3, 5, 90}, 40, 1.08, 2.38},
};

bool same_kind(struct kind a, struct kind b) {
    return a.n0 == b.n0 && a.sweeps == b.sweeps && a.hundredths == b.hundredths;
}

// Nothing where his table has no such cell.
const struct larson *larson(int table, struct kind kind, int slots) {
    for (size_t i = 0; i < sizeof figures / sizeof figures[0]; i++) {
        const struct larson *row = &figures[i];
        if (row->table == table && row->slots == slots && same_kind(row->kind, kind))
            return row;
    }
    return NULL;
}
