#include "empty.h"
#include "../baseline/baseline.h"
#include "page.h"

uint32_t empty_file(struct reefcushion_slip *slip, uint8_t *area, uint16_t edition, uint32_t pages, uint32_t cap) {
    static uint32_t row[MOST_PAGES];
    const size_t bytes = (size_t)PAGE_BYTES * cap;
    uint32_t refusal = baseline_format(slip, area, bytes, 2, 8, 5, (uint16_t)cap, edition);
    while (!refusal && slip->pages < pages)
        refusal = baseline_grow(slip, area, bytes, row, cap);
    return refusal;
}
