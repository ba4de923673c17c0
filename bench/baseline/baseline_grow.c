// Grow of the plain register.
#include "baseline_resize.h"
#include "baseline_steps.h"

// The group that grows into the new page; the step under way, and its draw.
struct growing {
    uint32_t group, groups, turn, x;
};

// The group whose new page is the next one: the rule for new pages turned round.
static struct growing find_group(const struct way *way) {
    struct growing growing;
    struct step step = way->first;
    for (growing.x = 1 + way->later; step.size + step.groups <= way->pages; growing.x++)
        next_step(way, &step);
    uint32_t row = way->pages - step.size, sweep = 0;
    for (; row >= step.each + (uint32_t)(sweep < step.more); sweep++)
        row -= step.each + (uint32_t)(sweep < step.more);
    growing.groups = step.groups;
    growing.turn = step.turn;
    growing.group = step.groups - 1 - (row * way->sweeps + sweep);
    return growing;
}

// Takes out the movers of one home, as many as there is room for, and gives the number of them all.
static uint32_t take_from_home(struct resize *resize, const struct growing *growing, uint32_t place, uint32_t count) {
    uint32_t all = 0;
    for (uint32_t end = place + count; place < end; place++) {
        if (!baseline_mover(load64(slot_at(resize, place) + 4), growing->turn, growing->x))
            continue;
        if (resize->taken < ROOM)
            baseline_take(resize, place, resize->last);
        all++;
    }
    return all;
}

// Takes out movers of the group. The number of them all goes from their homes' counts in the row to the new page's.
static uint32_t take_movers(struct resize *resize, const struct growing *growing, uint32_t *row) {
    uint32_t end = 0, all = 0, next = growing->group;
    resize->taken = 0;
    for (uint32_t home = 0; home < growing->groups * growing->turn; home++) {
        end = first_place(home, end);
        if (home == next) {
            uint32_t movers = take_from_home(resize, growing, end, resize->count[home]);
            if (row)
                row[home] -= movers;
            all += movers;
            next += growing->groups;
        }
        end += resize->count[home];
    }
    if (row)
        row[resize->last] += all;
    return all;
}

// Closes up where the movers were that are taken out, and gives the place after the last record.
static uint32_t close_up(struct resize *resize) {
    uint32_t from = 0, to = 0, next = 0;
    for (uint32_t home = 0; home <= resize->last; home++) {
        from = first_place(home, from);
        to = first_place(home, to);
        for (uint32_t end = from + resize->count[home]; from < end;) {
            uint32_t stop = next < resize->taken ? lesser(resize->mover[next].place, end) : end;
            if (from == stop) {
                next++;
                from++;
                resize->count[home]--;
            } else {
                uint32_t count = stop - from;
                if (from != to) {
                    count = lesser(count, SLOTS - (from % SLOTS > to % SLOTS ? from % SLOTS : to % SLOTS));
                    move_block(resize, from, to, count);
                }
                from += count;
                to += count;
            }
        }
    }
    return to;
}

// Takes all movers to the new page, and gives how many records changed page. Those of the first round are out already.
static uint32_t rearrange(struct resize *resize, const struct growing *growing, uint32_t movers) {
    const bool stamped = movers > ROOM;
    if (stamped)
        baseline_stamp(resize);
    while (movers) {
        uint32_t end = close_up(resize);
        baseline_sort_taken(resize);
        baseline_lay_home(resize, resize->last, end, end + resize->taken, resize->taken);
        movers -= resize->taken;
        if (movers)
            take_movers(resize, growing, NULL);
    }
    return baseline_resize_end(resize, stamped);
}

uint32_t baseline_grow(struct reefcushion_slip *slip, uint8_t *area, size_t bytes, uint32_t *row, size_t counts) {
    struct resize resize;
    uint32_t refusal = baseline_gate(slip, bytes);
    if (!refusal && counts != slip->cap)
        refusal = REEFCUSHION_WRONG_ROW;
    if (!refusal && slip->pages == slip->cap)
        refusal = REEFCUSHION_AT_CAP;
    if (refusal)
        return baseline_answer(slip, refusal, 0);
    struct way way = baseline_way(slip);
    refusal = baseline_resize_begin(&resize, slip, &way, area, slip->pages);
    if (refusal)
        return refusal;
    for (uint32_t home = 0; home < slip->cap; home++)
        row[home] = resize.count[home];
    const struct growing growing = find_group(&way);
    uint32_t movers = take_movers(&resize, &growing, row);
    if (!baseline_has_room(&resize, row))
        return baseline_answer(slip, REEFCUSHION_NO_ROOM, slip->cap);
    slip->moved = rearrange(&resize, &growing, movers);
    slip->pages++;
    return REEFCUSHION_ACCEPTED;
}
