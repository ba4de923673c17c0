// What the files of the speed program share: equal files for the sides, and the time that calls on them take.
#pragma once
#include <stdbool.h>

#include "../baseline/baseline.h"
#include "../common/page.h"

// The proved calls; the plain ones key by key; the plain ones in step.
enum side { OURS, C, IN_STEP, SIDES };
// The keys of a file: any; in a row from 0; in a row from 0 in a file of edition 2, where all others are of edition 1.
enum style { RANDOM, CONSECUTIVE, CONSECUTIVE_2, STYLES };

struct file {
    struct reefcushion_slip slip;
    uint8_t *area;
    size_t bytes;
};

// The same file for each side and once more as it was at first, with the keys that it holds.
struct files {
    enum style style;
    struct file of[SIDES], first;
    uint64_t *held;
    uint32_t held_count;
    uint64_t fresh, choice; // the number of the next key that isn't held; of the next choice among those held
};

// A figure for each side, and the ratio of ours to each.
struct cost {
    double of[SIDES], ratio[SIDES];
};

// A pay run in one call, and as single calls: nanoseconds a put, and for each side the ratio of the one call to the
// single ones.
enum { RUN_PUTS = 500 };
struct run_cost {
    struct cost one_call, single_calls;
    double ratio[SIDES];
};

// A file of so many pages at load 4/5, and one of the same records that lacks the last page.
struct files make_files(enum style style, uint32_t pages, uint32_t cap);
struct files one_page_before(const struct files *files);
void drop_files(struct files *files);

// The parts that files are made of: room for so many pages; room for the sides' copies of a file, and for its keys; and
// keys put into it, those that come next, until it holds so many records.
struct file new_file(uint32_t cap);
struct files files_of(enum style style, struct file first);
void fill(struct files *files, uint32_t records);

_Noreturn void stop(const char *why);
void copy_file(struct file *to, const struct file *from);
void restore(struct files *files);
bool same_file(const struct file *left, const struct file *right);
void require_same_slips(const struct files *files);
void require_same_files(const struct files *files);

// Keys: any that are held; such as were never put; such as were never put and find room, one after the other.
void any_held(struct files *files, uint64_t *key, uint32_t count);
void next_fresh(struct files *files, uint64_t *key, uint32_t count);
void next_with_room(struct files *files, uint64_t *key, uint32_t count);

// Takes any records out of the copy that isn't measured, and tells their keys. Puts them back, after which that copy
// has to be what the sides have.
void take_out(struct files *files, uint64_t *key, uint32_t count);
void put_back(struct files *files, const uint64_t *key, uint32_t count);

// Nanoseconds a call; for a growth and for a shrink also how many checks it is worth.
struct cost time_find(struct files *files, bool hit, unsigned rounds);
void time_put_and_remove(struct files *files, unsigned rounds, struct cost *put, struct cost *remove);
struct cost time_check(struct files *files, unsigned rounds);
struct cost time_grow(struct files *files, unsigned rounds, struct cost *to_check);
struct cost time_shrink(struct files *files, unsigned rounds, struct cost *to_check);
struct run_cost time_run(struct files *files, unsigned rounds);

// Pages read on average: by a find of a held key, or by a put of one that isn't held.
double pages_read(struct files *files, bool by_put);
