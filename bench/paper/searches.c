// Searches in a filled file: the pages read as the product tells them, and what Larson's rule would have read in the
// same file.
#include "paper.h"

void add_read(struct reads *reads, int pages) {
    reads->searches++;
    reads->pages += pages;
    reads->most = pages > reads->most ? pages : reads->most;
}

double mean_read(struct reads reads) {
    return (double)reads.pages / (double)reads.searches;
}

static bool stands_on(const struct file *file, int page, uint64_t key) {
    for (int slot = 0; slot < records_on(file, page); slot++) {
        const uint8_t *at = file->area + page_start((uint32_t)page) + HEAD_BYTES + SLOT_BYTES * slot;
        if (load64(at + 4) == key)
            return true;
    }
    return false;
}

// Searches for a record held. It has to be found with its value, on the page that the pages read lead to from the
// harness's own home.
static int search_held(struct file *file, uint32_t place) {
    struct reefcushion_slip *slip = &file->slip;
    uint64_t key = key_at(file->loading, place);
    if (reefcushion_find(slip, sizeof *slip, file->area, lent_bytes(file), key) != 0 || slip->value != place)
        stop("a held record isn't found", place);
    int page = (int)home_of(slip, key) + (int)slip->read - 1;
    if (!stands_on(file, page, key))
        stop("a record isn't on the last page read", page);
    return (int)slip->read;
}

// Larson's records stand in no order, so his search ends at the first page that isn't full. Each page holds as many
// records in his placement as here.
static int to_a_page_not_full(const struct file *file, int home) {
    int page = home;
    while (page < file->slip.cap - 1 && records_on(file, page) == SLOTS)
        page++;
    return page - home + 1;
}

// Every record is sought once, so what comes of it is exact.
void search_all_held(struct file *file, struct reads *reads) {
    for (uint32_t place = 0; place < file->slip.records; place++)
        add_read(reads, search_held(file, place));
}

static double hits(struct file *file) {
    struct reads reads = {0, 0, 0};
    for (uint64_t i = 0; i < SEARCHES; i++) {
        uint64_t choice = number_at(file->loading, HIT_CHOICES, SEARCHES * (uint64_t)file->slip.pages + i);
        add_read(&reads, search_held(file, (uint32_t)(choice % file->slip.records)));
    }
    return mean_read(reads);
}

// A key never put: any, or where keys run upward one of those that come next.
uint64_t absent_key(const struct file *file, uint64_t i) {
    if (file->loading == UPWARD)
        return key_at(UPWARD, file->slip.records + i);
    return number_at(file->loading, MISS_KEYS, SEARCHES * (uint64_t)file->slip.pages + i);
}

void search_absent(struct file *file, struct reads *reads, struct reads *by_his_rule) {
    struct reefcushion_slip *slip = &file->slip;
    for (uint64_t i = 0; i < SEARCHES; i++) {
        uint64_t key = absent_key(file, i);
        if (reefcushion_find(slip, sizeof *slip, file->area, lent_bytes(file), key) != REEFCUSHION_ABSENT)
            stop("a key that was never put isn't absent", (long)i);
        int further = to_a_page_not_full(file, (int)home_of(slip, key));
        if ((int)slip->read > further)
            stop("a search went beyond a page that isn't full", slip->read);
        add_read(reads, (int)slip->read);
        add_read(by_his_rule, further);
    }
}

struct cost searched(struct file *file) {
    struct reads absent = {0, 0, 0}, by_his_rule = {0, 0, 0};
    search_absent(file, &absent, &by_his_rule);
    return (struct cost){hits(file), mean_read(absent), mean_read(by_his_rule)};
}
