// Shrink of the plain register.
#include "baseline_resize.h"

// Takes out as many of the records with the last home as there is room for. They are the last of all, so the others
// stay where they are. The way is the one without that page.
static void take_last(struct resize *resize, const struct way *way, uint16_t end[]) {
    const uint32_t all = lesser(resize->count[resize->last], ROOM);
    resize->count[resize->last] -= all;
    end[resize->last] -= all;
    for (resize->taken = 0; resize->taken < all;) {
        const uint32_t place = end[resize->last] + resize->taken;
        struct sight sight = {.used = lesser(all - resize->taken, SLOTS)};
        for (uint32_t i = 0; i < sight.used; i++)
            sight.key[i] = load64(slot_at(resize, place + i) + 4);
        baseline_homes(way, &sight);
        for (uint32_t i = 0; i < sight.used; i++)
            baseline_take(resize, place + i, sight.home[i]);
    }
}

// Lays movers from the next one on, with the records that have to give way: first upward, home by home, to where
// nothing is displaced any more, and from there back down. Gives which mover is the next then.
static uint32_t lay_some(struct resize *resize, const uint16_t end[], uint32_t next) {
    const uint32_t first = resize->mover[next].home;
    uint32_t home = first, to = end[home], movers = next;
    for (;; to += resize->count[++home]) {
        for (; movers < resize->taken && resize->mover[movers].home == home; movers++)
            to++;
        if (home == resize->last || to <= first_place(home + 1, end[home]))
            break;
    }
    uint32_t left = movers;
    do {
        left = baseline_lay_home(resize, home, end[home], to, left);
        to -= resize->count[home];
    } while (home-- > first);
    return movers;
}

// Takes all records with the last home to the homes that they have without that page, and gives how many records
// changed page.
static uint32_t rearrange(struct resize *resize, const struct way *way) {
    uint16_t end[MOST_PAGES];
    const bool stamped = resize->count[resize->last] > ROOM;
    if (stamped)
        baseline_stamp(resize);
    while (resize->count[resize->last]) {
        baseline_find_ends(resize, end);
        take_last(resize, way, end);
        baseline_sort_taken(resize);
        for (uint32_t next = 0; next < resize->taken;)
            next = lay_some(resize, end, next);
    }
    return baseline_resize_end(resize, stamped);
}

// Homes only sink, so each record might stay where it is: there is room always, and 7 is never given.
uint32_t baseline_shrink(struct reefcushion_slip *slip, uint8_t *area, size_t bytes) {
    struct resize resize;
    uint32_t refusal = baseline_gate(slip, bytes);
    if (!refusal && slip->pages == slip->n0 * slip->groups)
        refusal = REEFCUSHION_AT_START;
    if (refusal)
        return baseline_answer(slip, refusal, 0);
    struct way way = baseline_way(slip);
    refusal = baseline_resize_begin(&resize, slip, &way, area, slip->pages - 1u);
    if (refusal)
        return refusal;
    way.pages--;
    slip->moved = rearrange(&resize, &way);
    slip->pages--;
    return REEFCUSHION_ACCEPTED;
}
