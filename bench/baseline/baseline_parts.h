// What the files of the plain register share: gates and answers, homes, judged pages.
#pragma once
#include <stdbool.h>
#include <string.h>

#include "../common/page.h"
#include "baseline.h"

// One partial expansion: a file of `size` pages in `groups` groups of `turn` pages each.
struct step {
    uint32_t size;
    uint16_t groups, turn;
    uint16_t each, more; // groups div sweeps, groups mod sweeps
};

// What the state alone says about homes, worked out once a call.
struct way {
    struct step first;
    uint64_t inverse; // 2^64 divided by n0 x N
    uint16_t n0, sweeps, pages;
    // 2^15 divided by N and by s, and one more: 2 x k x share / 2^16 is then k divided by it, since k times it stays
    // below 2^15.
    uint16_t group_share, sweep_share;
    uint16_t later; // step x takes draw x + later
};

// A page that keeps the page rules: its records, as far as they decide its order. Loops over it take all slots and then
// ask which are used, since a fixed number is quicker; the home of an empty slot means nothing.
struct sight {
    uint64_t key[SLOTS];
    uint16_t home[SLOTS];
    uint32_t used;
};

struct way baseline_way(const struct reefcushion_slip *slip);
uint32_t baseline_home(const struct way *way, uint64_t key);
void baseline_homes(const struct way *way, struct sight *sight);
void baseline_draws_at_start(const struct way *way, const uint64_t key[SLOTS], uint32_t draw[SLOTS]);
void baseline_homes_in_step(const struct way *way, const uint64_t key[SLOTS], uint16_t home[SLOTS]);
bool baseline_mover(uint64_t key, uint32_t turn, uint32_t x);

// The keys of a page that was judged before, with the homes that they have by this way, which may be another file's.
void baseline_sight(const struct way *way, const uint8_t *page, struct sight *sight);

// Whether a page keeps the page rules; only then is the sight whole.
bool baseline_judge(const struct way *way, const uint8_t *area, uint32_t address, struct sight *sight);

// Looks a whole file over and answers as check does. Counts the records of each home where there are counts to add to.
uint32_t baseline_survey(struct reefcushion_slip *slip, const struct way *way, const uint8_t *area, uint16_t *count);

// Checks one of two files, whose slip stays as it is, and tells what check answers. The pages that were read before it
// count too; but a wrong state or length is told with no page read, even where it is the second file's.
uint32_t baseline_check_next(const struct reefcushion_slip *slip, const uint8_t *area, size_t bytes, uint32_t read,
                             struct reefcushion_slip *told);

// The first cause that speaks against a state and the length of its area, or else 0.
uint32_t baseline_gate(const struct reefcushion_slip *slip, size_t bytes);

// An answer with nothing in it but a refusal and the pages read; and one that names a broken page. The state stays.
uint32_t baseline_answer(struct reefcushion_slip *slip, uint32_t refusal, uint32_t read);
uint32_t baseline_broken(struct reefcushion_slip *slip, uint32_t page, uint32_t read);

// A put behind the gate, by the way that the state has.
uint32_t baseline_put_by(const struct way *way, struct reefcushion_slip *slip, uint8_t *area, uint64_t key,
                         uint64_t value);

// Sorts entries of 20 bytes each, which have their key where a slot has it, by key.
void baseline_sort(uint8_t *entries, uint32_t count);

// Whether growth is due in a state that is in range.
static inline bool past_load(const struct reefcushion_slip *slip) {
    return 5 * slip->records > 48 * (uint32_t)slip->pages;
}

// Whether one (home, key) stands before another.
static inline bool before(uint32_t home, uint64_t key, uint32_t other_home, uint64_t other_key) {
    return (home < other_home) | ((home == other_home) & (key < other_key));
}
