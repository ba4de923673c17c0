// What no call leaves: bytes of a page and numbers of a state that are wrong, mostly by little.
#include "agree.h"

static uint8_t *any_slot(uint8_t *page) {
    return slot_of(page, below(SLOTS));
}

static void swap_two_slots(uint8_t *page) {
    uint8_t slot[SLOT_BYTES];
    memcpy(slot, slot_of(page, 3), SLOT_BYTES);
    memcpy(slot_of(page, 3), slot_of(page, 4), SLOT_BYTES);
    memcpy(slot_of(page, 4), slot, SLOT_BYTES);
}

void damage_page(uint8_t *page) {
    switch (below(6)) {
    case 0: page[below(PAGE_BYTES)] ^= (uint8_t)(1 << below(8)); break;
    case 1: page[below(24)] = (uint8_t)below(20); break;
    case 2: memmove(any_slot(page), any_slot(page), SLOT_BYTES); break;
    case 3: swap_two_slots(page); break;
    case 4: page[8] += one_in(2) ? 1 : 255; break;
    default: any_slot(page)[2] ^= 1; break;
    }
}

// The other edition, the two that come next, which there aren't, and any.
static uint16_t other_edition_less_1(uint16_t edition_less_1) {
    switch (below(4)) {
    case 0: return 2;
    case 1: return 65535;
    case 2: return (uint16_t)any();
    default: return edition_less_1 ^ 1;
    }
}

// Numbers at and past the ends of their ranges, among others.
void damage_slip(struct reefcushion_slip *slip) {
    static const uint16_t odd[] = {0, 1, 2, 4, 5, 8, 9, 64, 65, 512, 4096, 4097, 16384, 32768, 65535};
    uint16_t number = one_in(2) ? odd[below(15)] : (uint16_t)below(80);
    switch (below(10)) {
    case 0: slip->n0 = number; break;
    case 1: slip->groups = number; break;
    case 2: slip->sweeps = number; break;
    case 3: slip->pages = number; break;
    case 4: slip->cap = number; break;
    case 5: slip->records = 12 * slip->cap + below(2); break;
    case 6: slip->records = below(2); break;
    case 7: slip->records += one_in(2) ? 1 : -1; break;
    case 8: slip->edition_less_1 = other_edition_less_1(slip->edition_less_1); break;
    default:
        memset((uint8_t *)slip + offsetof(struct reefcushion_slip, value), below(256),
               sizeof *slip - offsetof(struct reefcushion_slip, value));
        break;
    }
}
