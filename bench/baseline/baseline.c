// The plain register: gates and answers, format and due.
#include "baseline_parts.h"

static bool in_range(uint32_t n0, uint32_t groups, uint32_t sweeps, uint32_t cap, uint32_t edition) {
    return n0 - 1 < 4 && groups - 1 < 64 && sweeps - 1 < 8 && cap - 1 < MOST_PAGES && n0 * groups <= cap &&
           edition - 1 < 2;
}

static bool state_holds(const struct reefcushion_slip *slip) {
    return in_range(slip->n0, slip->groups, slip->sweeps, slip->cap, slip->edition_less_1 + 1u) &&
           slip->n0 * slip->groups <= slip->pages && slip->pages <= slip->cap &&
           slip->records <= SLOTS * (uint32_t)slip->cap;
}

uint32_t baseline_gate(const struct reefcushion_slip *slip, size_t bytes) {
    if (!state_holds(slip))
        return REEFCUSHION_OUT_OF_RANGE;
    return bytes == page_start(slip->cap) ? REEFCUSHION_ACCEPTED : REEFCUSHION_WRONG_AREA;
}

uint32_t baseline_answer(struct reefcushion_slip *slip, uint32_t refusal, uint32_t read) {
    slip->value = 0;
    slip->read = read;
    slip->moved = 0;
    slip->refusal = (uint16_t)refusal;
    slip->page = 0;
    slip->file = 0;
    slip->zeros = 0;
    return refusal;
}

uint32_t baseline_broken(struct reefcushion_slip *slip, uint32_t page, uint32_t read) {
    baseline_answer(slip, REEFCUSHION_BROKEN, read);
    slip->page = (uint16_t)page;
    return REEFCUSHION_BROKEN;
}

uint32_t baseline_due(const struct reefcushion_slip *slip) {
    return state_holds(slip) && past_load(slip);
}

uint32_t baseline_format(struct reefcushion_slip *slip, uint8_t *area, size_t bytes, uint16_t n0, uint16_t groups,
                         uint16_t sweeps, uint16_t cap, uint16_t edition) {
    if (!in_range(n0, groups, sweeps, cap, edition))
        return baseline_answer(slip, REEFCUSHION_OUT_OF_RANGE, 0);
    if (bytes != page_start(cap))
        return baseline_answer(slip, REEFCUSHION_WRONG_AREA, 0);
    uint8_t page[PAGE_BYTES];
    for (uint32_t i = 0; i < SLOTS; i++)
        write_slot(slot_of(page, i), MARK_EMPTY, 0, 0);
    for (uint32_t address = 0; address < cap; address++) {
        write_head(page, address, 0);
        memcpy(area + page_start(address), page, PAGE_BYTES);
    }
    *slip = (struct reefcushion_slip){.n0 = n0,
                                      .groups = groups,
                                      .sweeps = sweeps,
                                      .pages = (uint16_t)(n0 * groups),
                                      .cap = cap,
                                      .edition_less_1 = (uint16_t)(edition - 1)};
    return REEFCUSHION_ACCEPTED;
}
