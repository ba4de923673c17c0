// What the files of the agreement test share: the two sides, and a call made to both.
#pragma once
#include <stdbool.h>

#include "../baseline/baseline.h"
#include "../common/page.h"
#include "../common/run.h"

enum { MOST = AGREE_PAGES, MOST_ITEMS = 400 }; // pages of the largest file here, puts of the longest run
enum call { FORMAT, FORMAT_EDITION, FIND, PUT, REMOVE, GROW, SHRINK, CHECK, DUE, PUT_RUN, CALLS };

// The rows of the table: the calls; the puts that stand in runs; comparisons and merges, and their answers about the
// second file, which of a merge is the one that isn't living.
enum { PUT_IN_RUN = CALLS, COMPARE, COMPARE_SECOND, MERGE, MERGE_SECOND, ROWS };

// One side's file and its room for replies, with a page, a count and some replies more than the largest, so that
// writing past the end is seen.
struct side {
    struct reefcushion_slip slip;
    uint8_t area[PAGE_BYTES * (MOST + 1)];
    uint32_t row[MOST + 1];
    uint8_t room[REPLY_BYTES * (MOST_ITEMS + 4)];
};
extern struct side ours, plain;
extern unsigned long calls_made, runs_made, puts_in_runs, ways_there_and_back, comparisons_made, merges_made;

// What a call is asked beside the file itself, and in which of its two ways the plain side works.
struct asked {
    size_t bytes, counts;
    uint64_t key, value;
    uint16_t n0, groups, sweeps, cap, edition;
    bool in_step;
    // of a run: its bytes, and which part of the room is lent
    const uint8_t *records;
    size_t records_bytes, room_at, room_bytes;
};

// Makes the call to both sides and ends the program where they differ; gives the refusal.
uint32_t ask(enum call call, const struct asked *asked);

// Makes both calls, a growth and a shrink in either order, and ends the program where both sides agree but the second,
// after a first one that was accepted, doesn't bring the file back to what it was before.
void ask_there_and_back(enum call there, enum call back, const struct asked *asked);

// Makes each call with a slip of another length and ends the program where it does anything.
void ask_with_wrong_slip(const struct asked *asked);

// Ends the program, since the sides differ; and looks whether they do in some bytes, which ends it likewise.
_Noreturn void differ(int row, const char *what, unsigned long left, unsigned long right);
void compare_bytes(int row, const char *what, const void *left, const void *right, size_t bytes);

// Notes an answer that both sides gave, which has to be one that the documents have.
void see(int row, uint32_t refusal, bool in_step);

// Prints how often each call gave each refusal; whether all that the calls give were seen, in either way.
bool tell_what_was_seen(void);

// Keeps the file as it is now, to compare or merge with later ones. Compares the file with another, which is one that
// was kept or itself, or, where it is as calls leave it, what comes of it by other calls or one that has nothing to do
// with it; and merges two such files. Either may be damaged.
void keep_file(void);
void ask_comparisons(bool whole);
void ask_merges(bool whole);

// Prints what comparisons told of, and what came of merges; whether all that they tell or come to was met.
bool tell_lists(void);
bool tell_merges(void);

// A pool of keys for a file that has just begun, and a put of one of them.
void choose_pool(void);
struct reefcushion_put_record any_put(void);

// A page that keeps the page rules, but whose records need not belong there.
void make_page(uint32_t address);

// Gives what is asked a run of such puts, of hundreds or some or one or none; and now and then what isn't one.
void add_run(struct asked *asked);

// A file's pages and numbers as no call leaves them.
void damage_page(uint8_t *page);
void damage_slip(struct reefcushion_slip *slip);

// Random numbers, of the one seed that the program is given.
uint64_t any(void);
uint32_t below(uint32_t bound);
bool one_in(uint32_t n);
