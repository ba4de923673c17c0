// Costs at any page size, by counting alone. In linear probing without wrapping round, the number of records on each
// page and the sum of their distances from home follow from the number of records of each home. So Larson's own page
// sizes can be counted again, without the product, to see whether the harness measures what he measured.
#include "paper.h"

static struct reefcushion_slip state_of(struct kind kind, int pages) {
    return (struct reefcushion_slip){.n0 = (uint16_t)kind.n0,
                                     .groups = (uint16_t)(START / kind.n0),
                                     .sweeps = (uint16_t)kind.sweeps,
                                     .pages = (uint16_t)pages};
}

static void count_homes(int homes[COUNTED], const struct reefcushion_slip *state, uint64_t loading, int records) {
    for (int page = 0; page < COUNTED; page++)
        homes[page] = 0;
    for (int place = 0; place < records; place++)
        homes[home_of(state, key_at(loading, (uint64_t)place))]++;
}

// Turns numbers of records a home into numbers of records a page, and gives the sum of the distances.
static long spread(int counts[COUNTED], int slots) {
    long distances = 0;
    int over = 0;
    for (int page = 0; page < COUNTED; page++) {
        int here = counts[page] + over;
        counts[page] = here < slots ? here : slots;
        over = here - counts[page];
        distances += over;
    }
    if (over != 0)
        stop("counted records overflow the last page", over);
    return distances;
}

// The product's pages have to hold as many records as counting says.
void must_be_counted(const struct file *file) {
    static int counts[COUNTED];
    count_homes(counts, &file->slip, file->loading, (int)file->slip.records);
    spread(counts, SLOTS);
    for (int page = 0; page < file->slip.cap; page++) {
        if (records_on(file, page) != counts[page])
            stop("a page holds another number of records than counting says", page);
    }
}

static int counted_search(const int counts[COUNTED], int slots, int home) {
    int page = home;
    while (page < COUNTED - 1 && counts[page] == slots)
        page++;
    return page - home + 1;
}

// The costs in Larson's placement; an unsuccessful search is by his rule.
struct cost counted_at(struct kind kind, uint64_t loading, int pages, int slots) {
    static int counts[COUNTED];
    int records = kind.hundredths * slots * pages / 100 + 1;
    const struct reefcushion_slip state = state_of(kind, pages);
    count_homes(counts, &state, loading, records);
    double hit = 1 + (double)spread(counts, slots) / records;
    long read = 0;
    for (uint64_t i = 0; i < SEARCHES; i++) {
        uint64_t key = number_at(loading, MISS_KEYS, SEARCHES * (uint64_t)pages + i);
        read += counted_search(counts, slots, (int)home_of(&state, key));
    }
    double miss = (double)read / SEARCHES;
    return (struct cost){hit, miss, miss};
}
