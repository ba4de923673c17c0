// Where keys live: the home of one key, and those of a page's keys.
#include "baseline_steps.h"

bool baseline_in_step;

struct way baseline_way(const struct reefcushion_slip *slip) {
    uint16_t start = (uint16_t)(slip->n0 * slip->groups);
    return (struct way){
        .first = {start, slip->groups, slip->n0, slip->groups / slip->sweeps, slip->groups % slip->sweeps},
        .inverse = ~(uint64_t)0 / start,
        .n0 = slip->n0,
        .sweeps = slip->sweeps,
        .pages = slip->pages,
        .group_share = (uint16_t)(32768 / slip->groups + 1),
        .sweep_share = (uint16_t)(32768 / slip->sweeps + 1),
        .later = slip->edition_less_1 ? LATER : 0,
    };
}

// The page that a group grows into, counted from the first of this step.
static uint32_t aim(const struct way *way, const struct step *step, uint32_t group) {
    uint32_t behind = step->groups - 1 - group;
    uint32_t row = 2 * behind * way->sweep_share >> 16;
    uint32_t sweep = behind - row * way->sweeps;
    return sweep * step->each + (sweep < step->more ? sweep : step->more) + row;
}

// The home of a key where steps take their draws so many later.
static inline uint32_t home_by(const struct way *way, uint64_t key, uint32_t later) {
    struct step step = way->first;
    uint32_t draw = draw_at_start(key, later), address = start_of(way, key);
    while (step.size < way->pages) {
        draw = next_draw(draw);
        if (moves(draw, limit_of(step.turn))) {
            uint32_t page = step.size + aim(way, &step, address % step.groups);
            if (page < way->pages)
                address = page;
        }
        next_step(way, &step);
    }
    return address;
}

// Each edition has a loop of its own: in one for both, what edition 2 begins with would slow edition 1 down.
uint32_t baseline_home(const struct way *way, uint64_t key) {
    return way->later ? home_by(way, key, LATER) : home_by(way, key, 0);
}

// Whether draw x makes a key a mover at a step at which a group has `turn` pages.
bool baseline_mover(uint64_t key, uint32_t turn, uint32_t x) {
    return moves(draw_of(seed_of(key), x), limit_of(turn));
}

// The way in step gets these through memory: where the compiler sees how they come about in either edition, it takes
// the lanes apart.
void baseline_draws_at_start(const struct way *way, const uint64_t key[SLOTS], uint32_t draw[SLOTS]) {
    for (uint32_t i = 0; i < SLOTS; i++)
        draw[i] = draw_at_start(key[i], way->later);
}

void baseline_homes(const struct way *way, struct sight *sight) {
    if (baseline_in_step) {
        baseline_homes_in_step(way, sight->key, sight->home);
        return;
    }
    memset(sight->home, 0, sizeof sight->home);
    for (uint32_t i = 0; i < sight->used; i++)
        sight->home[i] = (uint16_t)baseline_home(way, sight->key[i]);
}

void baseline_sight(const struct way *way, const uint8_t *page, struct sight *sight) {
    sight->used = used_on(page);
    if (!sight->used)
        return;
    for (uint32_t i = 0; i < SLOTS; i++)
        sight->key[i] = load64(page + HEAD_BYTES + SLOT_BYTES * i + 4);
    baseline_homes(way, sight);
}
