// A page's bytes, which c/reefcushion.h lays out, for what looks at pages or writes them without the register's calls.
#pragma once
#include <stddef.h>
#include <stdint.h>
#include <string.h>

#include "../../c/reefcushion.h"

enum { PAGE_BYTES = REEFCUSHION_PAGE, HEAD_BYTES = 16, SLOT_BYTES = 20, SLOTS = 12, MOST_PAGES = 4096 };
enum { MARK_EMPTY = 0x00000014, MARK_RECORD = 0x00010014 }; // a slot's length and kind

static inline uint16_t load16(const uint8_t *from) {
    uint16_t number;
    memcpy(&number, from, sizeof number);
    return number;
}

static inline uint32_t load32(const uint8_t *from) {
    uint32_t number;
    memcpy(&number, from, sizeof number);
    return number;
}

static inline uint64_t load64(const uint8_t *from) {
    uint64_t number;
    memcpy(&number, from, sizeof number);
    return number;
}

// Where a page starts in the area.
static inline size_t page_start(uint32_t address) {
    return (size_t)PAGE_BYTES * address;
}

// The first half of a page's head, as one number: length, kind and address. The other half is the records used.
static inline uint64_t head_of(uint32_t address) {
    return PAGE_BYTES | 0x0011 << 16 | (uint64_t)address << 32;
}

static inline void write_head(uint8_t *page, uint32_t address, uint32_t used) {
    const uint64_t head[2] = {head_of(address), used};
    memcpy(page, head, sizeof head);
}

static inline uint8_t *slot_of(uint8_t *page, uint32_t slot) {
    return page + HEAD_BYTES + SLOT_BYTES * slot;
}

static inline uint32_t used_on(const uint8_t *page) {
    return load16(page + 8);
}

static inline uint32_t longest_full_run(const uint8_t *area, uint32_t cap) {
    uint32_t longest = 0, run = 0;
    for (uint32_t address = 0; address < cap; address++) {
        run = used_on(area + page_start(address)) == SLOTS ? run + 1 : 0;
        longest = run > longest ? run : longest;
    }
    return longest;
}

static inline void set_used(uint8_t *page, uint32_t used) {
    uint16_t number = (uint16_t)used;
    memcpy(page + 8, &number, sizeof number);
}

static inline void write_slot(uint8_t *slot, uint32_t mark, uint64_t key, uint64_t value) {
    memcpy(slot, &mark, 4);
    memcpy(slot + 4, &key, 8);
    memcpy(slot + 12, &value, 8);
}
