// What the speed program measures, and what it should come to.
#pragma once
#include "speed.h"

enum { FIND_HELD, FIND_ABSENT, PUT, REMOVE, GROW, SHRINK, CHECK, CALLS };
extern const char *const style_names[STYLES], *const call_names[CALLS];

// Some sizes are in the tables beside C, some where sizes are followed.
struct size {
    uint32_t pages;
    bool compared, followed;
};
enum { SIZES = 6, LARGEST = SIZES - 1, FILES = STYLES * SIZES };

// What is measured of a file. Those with random keys come first.
struct figures {
    struct size size;
    enum style style;
    uint32_t cap, records, longest_run;
    struct cost cost[CALLS], grow_to_check, shrink_to_check;
    struct run_cost run; // of the compared files
    double read_by_find, read_by_put;
};
extern struct figures figures[FILES];

// A figure of a file: of a call, or beside a side, by its number.
typedef double figure(const struct figures *at, int i);
figure run_to_single_calls, run_to_run;

// What ours should come to at most: figures of each file that it is asked of, by name.
struct target {
    const char *what;
    double most;
    const char *beside;
    figure *of;
    bool (*asked)(const struct figures *at);
    const char *const *names;
    int count, places; // how many figures a file has, and decimals a figure
};
extern const struct target calls_to_c, calls_to_c_in_step, changes_to_c_in_step, runs_to_single_calls;
extern const struct target random_growths, consecutive_growths, shrinks;

// How many of a target's figures meet it, and how many there are.
struct verdict {
    int met, all;
};
struct verdict verdict_on(const struct target *target);
void print_verdict(const struct target *target);

// The least and the most of a figure over the compared files.
struct range {
    double least, most;
};
struct range range_of(figure *of, int i);

// Edition 2 beside edition 1 where keys run upward, in files of the compared sizes.
void measure_editions(unsigned scale);
void print_editions(void);
void print_editions_in_short(void);

// Two files compared: of the largest size, with random keys.
void measure_comparisons(unsigned scale);
void print_comparisons(unsigned scale);
void print_comparisons_in_short(void);

// One file merged into another: of the largest size too, with random keys.
void measure_merges(unsigned scale);
void print_merges(unsigned scale);
void print_merges_in_short(void);
