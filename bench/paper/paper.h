// What the parts of the harness share: files are filled as in Larson's simulations (1985), and the pages read in
// searches are set beside his figures.
#pragma once
#include <stdbool.h>
#include <stdint.h>

#include "../../c/reefcushion.h"
#include "../common/home.h"
#include "../common/page.h"
#include "../common/random.h"

enum {
    START = 126,  // pages of a fresh file: 63 groups of two, or 42 of three
    FIRST = 1008, // the full expansion that is measured begins here, and ends at twice that; his went from 1000 to 2000
    CAP = 2304,   // pages lent to a loading: room for overflow beyond the last page grown to
    SEARCHES = 2000, // searches of each sort at each size looked at
    CURVE = 56,      // stretches of a plotted curve
    MOST_N0 = 3,     // pages a group and sweeps of the tables go up to here
    MOST_SWEEPS = 8,
};

// One cell of a table: pages a group, sweeps, and the load in hundredths.
struct kind {
    int n0, sweeps, hundredths;
};

static inline double load_of(struct kind kind) {
    return kind.hundredths / 100.0;
}

// How much is run. Of the grown files, those made through `grow` page by page, there are none, those of one loading, or
// all.
struct effort {
    int loadings, points;
    enum grown { GROWN_NONE, GROWN_ONE, GROWN_ALL } grown;
};

// Pages read on average: in a successful search, in an unsuccessful one, and in an unsuccessful one had it gone on to a
// page that isn't full, as his does.
struct cost {
    double hit, miss, his;
};

// A mean over the loadings and its standard error.
struct figure {
    double mean, error;
};

struct averages {
    struct figure hit, miss, his;
};

// A file with the loading whose keys fill it. The slip says how much of the area is lent.
struct file {
    struct reefcushion_slip slip;
    struct kind kind;
    uint64_t loading;
    uint8_t area[MOST_PAGES * PAGE_BYTES];
};

static inline size_t lent_bytes(const struct file *file) {
    return page_start(file->slip.cap);
}

// Random numbers of a loading, a stream for each use.
enum { RECORD_KEYS, HIT_CHOICES, MISS_KEYS };
static inline uint64_t number_at(uint64_t loading, int stream, uint64_t place) {
    return random_at(mixed(1985 + 4 * loading + (uint64_t)stream), place);
}

// The keys of a loading, by their place in it. One loading isn't random: its keys run upward from 0.
static const uint64_t UPWARD = ~(uint64_t)0;
static inline uint64_t key_at(uint64_t loading, uint64_t place) {
    return loading == UPWARD ? place : number_at(loading, RECORD_KEYS, place);
}

// files.c
_Noreturn void stop(const char *why, long number);
void format_file(struct file *file, struct kind kind, uint64_t loading);
void lay_file(struct file *file, struct kind kind, uint64_t loading, int pages);
void lay_upward(struct file *file, uint16_t edition, int pages);
void grow_file(struct file *file, int pages);
void must_be_same(const struct file *left, const struct file *right);
int records_on(const struct file *file, int page);

// searches.c
struct reads {
    long searches, pages;
    int most;
};
void add_read(struct reads *reads, int pages);
double mean_read(struct reads reads);
uint64_t absent_key(const struct file *file, uint64_t i);
void search_all_held(struct file *file, struct reads *reads);
void search_absent(struct file *file, struct reads *reads, struct reads *by_his_rule);
struct cost searched(struct file *file);

// counting.c
enum { COUNTED = 2 * CAP };
void must_be_counted(const struct file *file);
struct cost counted_at(struct kind kind, uint64_t loading, int pages, int slots);

// averages.c
int size_at(struct effort effort, int loading, int point);
struct figure figure(double sum, double squares, int count);
struct averages product_averages(struct kind kind, struct effort effort);
struct averages counted_averages(struct kind kind, struct effort effort, int slots);
void product_curve(struct kind kind, struct effort effort, struct cost curve[CURVE + 1]);

// larson.c
struct larson {
    int table;
    struct kind kind;
    int slots;
    double hit, miss;
};
bool same_kind(struct kind a, struct kind b);
const struct larson *larson(int table, struct kind kind, int slots);

// sweeps.c, loads.c, editions.c, separators.c: tables in Markdown, and what they come to in words
void print_sweeps(struct effort effort);
void print_loads(struct effort effort);
void print_editions(void);
void print_separators(struct effort effort);

// control.c: words only
void print_control(struct effort effort);

// plot.c
void plot(const char *name, struct effort effort);
