// The register in plain C: the calls of c/reefcushion.h, to measure the proved ones against. Slip, area, row, records,
// replies, list, comparison and refusals are the same; only a slip or a comparison of another length can't be told,
// since that isn't asked, and there is one format for both editions.
#pragma once
#include <stdbool.h>
#include <stddef.h>
#include <stdint.h>

#include "../../c/reefcushion.h"

// How the homes of a page's records are worked out. False, as at the start: key by key, for the records that there are.
// True: for all twelve slots in step, in loops that tell the compiler to use vectors, as an expert would write them. The
// answers are the same.
extern bool baseline_in_step;

// Each gives the refusal, 0 for an accepted call, and leaves the answer in the slip.
uint32_t baseline_format(struct reefcushion_slip *slip, uint8_t *area, size_t bytes, uint16_t n0, uint16_t groups,
                         uint16_t sweeps, uint16_t cap, uint16_t edition);
uint32_t baseline_find(struct reefcushion_slip *slip, const uint8_t *area, size_t bytes, uint64_t key);
uint32_t baseline_put(struct reefcushion_slip *slip, uint8_t *area, size_t bytes, uint64_t key, uint64_t value);
uint32_t baseline_put_run(struct reefcushion_slip *slip, uint8_t *area, size_t bytes, const uint8_t *records,
                          size_t records_bytes, uint8_t *replies, size_t replies_bytes);
uint32_t baseline_remove(struct reefcushion_slip *slip, uint8_t *area, size_t bytes, uint64_t key);
uint32_t baseline_grow(struct reefcushion_slip *slip, uint8_t *area, size_t bytes, uint32_t *row, size_t counts);
uint32_t baseline_shrink(struct reefcushion_slip *slip, uint8_t *area, size_t bytes);
uint32_t baseline_check(struct reefcushion_slip *slip, const uint8_t *area, size_t bytes);

// What differs between two files, written to the list. Gives the refusal too, and leaves the answer in the comparison.
uint32_t baseline_compare(const struct reefcushion_slip *slip, const uint8_t *area, size_t bytes,
                          const struct reefcushion_slip *other, const uint8_t *other_area, size_t other_bytes,
                          uint8_t *list, size_t list_bytes, struct reefcushion_comparison *answer);

// The other file's records into the living one, whose slip and area are the first and whose row is lent.
uint32_t baseline_merge(struct reefcushion_slip *slip, uint8_t *area, size_t bytes,
                        const struct reefcushion_slip *other, const uint8_t *other_area, size_t other_bytes,
                        uint32_t *row, size_t counts);

// 1 where growth is due, otherwise 0.
uint32_t baseline_due(const struct reefcushion_slip *slip);
