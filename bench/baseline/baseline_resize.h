// What grow and shrink of the plain register share, and merge in part: records that move in place. In an image the
// number of records of each home says where every record lies: its place is counted in slots from the area's start.
#pragma once
#include "baseline_parts.h"

enum { ROOM = 32 }; // movers taken out in one round; where there are more, there are more rounds

// A record whose home changes: the home that it gets, and its place before.
struct mover {
    uint64_t key, value;
    uint32_t mark, home, place;
};

// A growth or a shrink at work, or the living file of a merge, which takes no movers out.
struct resize {
    uint8_t *area;
    uint32_t cap, last; // the pages lent; the last home, which in a growth or a shrink is the page that comes or goes
    uint32_t taken, moved;
    struct mover mover[ROOM];
    uint16_t count[MOST_PAGES]; // of each home, as the records lie now
};

// Looks the file over and answers as check does, with everything ready for the first round where it accepts.
uint32_t baseline_resize_begin(struct resize *resize, struct reefcushion_slip *slip, const struct way *way,
                               uint8_t *area, uint32_t last);

// Where the records of each home end.
void baseline_find_ends(const struct resize *resize, uint16_t end[]);

// Whether there is room for so many records of each home.
bool baseline_has_room(const struct resize *resize, const uint32_t *row);

// Takes a record out, which is to get this home.
void baseline_take(struct resize *resize, uint32_t place, uint32_t home);

// Puts what was taken out in the order of home and key.
void baseline_sort_taken(struct resize *resize);

// Moves the records of a home from where they end to where they will end, which is no lower, from the last one down,
// and lays those of the first so many movers among them that belong there. Gives how many movers are left.
uint32_t baseline_lay_home(struct resize *resize, uint32_t home, uint32_t from, uint32_t to, uint32_t movers);

// Before the first round where there is more than one, and after the last, which gives how many records changed page.
void baseline_stamp(struct resize *resize);
uint32_t baseline_resize_end(const struct resize *resize, bool stamped);

static inline uint32_t lesser(uint32_t left, uint32_t right) {
    return left < right ? left : right;
}

static inline uint8_t *slot_at(const struct resize *resize, uint32_t place) {
    return slot_of(resize->area + page_start(place / SLOTS), place % SLOTS);
}

static inline uint32_t first_place(uint32_t home, uint32_t end) {
    return end < SLOTS * home ? SLOTS * home : end;
}

// Moves records that lie on one page to one page.
static inline void move_block(struct resize *resize, uint32_t from, uint32_t to, uint32_t count) {
    memmove(slot_at(resize, to), slot_at(resize, from), (size_t)SLOT_BYTES * count);
    resize->moved += from / SLOTS != to / SLOTS ? count : 0;
}
