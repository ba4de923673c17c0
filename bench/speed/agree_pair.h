// What comparisons and merges of two files share: the files that they are asked about.
#pragma once
#include "agree.h"

// A file as a side is lent it, with a page more than the largest, so that writing past the end is seen.
struct lent {
    struct reefcushion_slip slip;
    size_t bytes;
    uint8_t area[PAGE_BYTES * (MOST + 1)];
};

// Lends two files, of which either is the one at hand and the other one that was kept or the same file; or, where the
// file at hand is as calls leave it, also what comes of it by other calls, an empty file, or one full of strangers. Now
// and then one of them is damaged, or both.
void lend_pair(struct lent file[2], bool whole);
