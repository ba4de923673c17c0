// Where the twelve keys of a page live, worked out in step.
#include "baseline_steps.h"

enum { LANES = 16 };

// Twelve keys, none of which waits for a guess about another: every lane works out where it would move, and moves or
// not. Four idle lanes let 16-bit lanes fill whole registers. An address is kept as turn x groups + group, so that
// nothing is divided.
struct lanes {
    uint32_t draw[SLOTS];
    uint16_t moves[LANES]; // all ones where the key is a mover
    uint16_t to[LANES], turn[LANES], group[LANES];
};

// The loops over lanes are plain; without these words clang unrolls them before it thinks of taking several lanes at
// once. Other compilers don't know the words.
#ifdef __clang__
#define EIGHT_AT_ONCE _Pragma("clang loop vectorize_width(8) interleave_count(1) unroll(full)")
#define FOUR_AT_ONCE _Pragma("clang loop vectorize_width(4) interleave_count(1) unroll(full)")
#else
#define EIGHT_AT_ONCE
#define FOUR_AT_ONCE
#endif

static void lanes_start(const struct way *way, const uint64_t key[SLOTS], struct lanes *lanes) {
    const uint16_t groups = way->first.groups, share = way->group_share;
    uint32_t draw[SLOTS];
    baseline_draws_at_start(way, key, draw);
    memset(lanes, 0, sizeof *lanes);
    memcpy(lanes->draw, draw, sizeof draw);
    for (int i = 0; i < SLOTS; i++)
        lanes->to[i] = (uint16_t)start_of(way, key[i]);
    EIGHT_AT_ONCE
    for (int i = 0; i < LANES; i++) {
        uint16_t twice = (uint16_t)(lanes->to[i] * 2);
        lanes->turn[i] = (uint16_t)((uint32_t)twice * share >> 16);
        lanes->group[i] = lanes->to[i] - (uint16_t)(lanes->turn[i] * groups);
    }
}

static void lanes_draw(struct lanes *lanes, int32_t limit) {
    FOUR_AT_ONCE
    for (int i = 0; i < SLOTS; i++) {
        lanes->draw[i] = next_draw(lanes->draw[i]);
        lanes->moves[i] = moves(lanes->draw[i], limit) ? 0xFFFF : 0;
    }
}

static void lanes_aim(const struct way *way, const struct step *step, struct lanes *lanes) {
    const uint16_t last = step->groups - 1, each = step->each, more = step->more;
    const uint16_t sweeps = way->sweeps, share = way->sweep_share;
    EIGHT_AT_ONCE
    for (int i = 0; i < LANES; i++) {
        uint16_t behind = last - lanes->group[i];
        uint16_t twice = (uint16_t)(behind * 2);
        uint16_t row = (uint16_t)((uint32_t)twice * share >> 16);
        uint16_t sweep = behind - (uint16_t)(row * sweeps);
        uint16_t least = sweep < more ? sweep : more;
        lanes->to[i] = (uint16_t)(sweep * each) + least + row;
    }
}

// In the step that is under way only the pages below `made` are there to move to. Both are small, so they may be
// compared as signed numbers, which is quicker.
static void lanes_hold(struct lanes *lanes, uint16_t made) {
    EIGHT_AT_ONCE
    for (int i = 0; i < LANES; i++)
        lanes->moves[i] &= (short)lanes->to[i] < (short)made ? 0xFFFF : 0;
}

static void lanes_go(struct lanes *lanes, uint16_t turn) {
    EIGHT_AT_ONCE
    for (int i = 0; i < LANES; i++) {
        lanes->group[i] ^= (lanes->group[i] ^ lanes->to[i]) & lanes->moves[i];
        lanes->turn[i] ^= (lanes->turn[i] ^ turn) & lanes->moves[i];
    }
}

// The same addresses in twice as many groups.
static void lanes_regroup(struct lanes *lanes, uint16_t groups) {
    EIGHT_AT_ONCE
    for (int i = 0; i < LANES; i++) {
        lanes->group[i] += (uint16_t)((lanes->turn[i] & 1) * groups);
        lanes->turn[i] >>= 1;
    }
}

void baseline_homes_in_step(const struct way *way, const uint64_t key[SLOTS], uint16_t home[SLOTS]) {
    struct lanes lanes;
    struct step step = way->first;
    lanes_start(way, key, &lanes);
    while (step.size < way->pages) {
        lanes_draw(&lanes, limit_of(step.turn));
        lanes_aim(way, &step, &lanes);
        if (step.size + step.groups > way->pages)
            lanes_hold(&lanes, (uint16_t)(way->pages - step.size));
        lanes_go(&lanes, step.turn);
        uint16_t groups = step.groups;
        if (next_step(way, &step))
            lanes_regroup(&lanes, groups);
    }
    for (int i = 0; i < SLOTS; i++)
        home[i] = (uint16_t)(lanes.turn[i] * step.groups) + lanes.group[i];
}
