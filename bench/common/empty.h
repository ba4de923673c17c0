#pragma once
#include <stdint.h>

#include "../../c/reefcushion.h"

// An empty file of 16 pages (n0 2, N 8, s 5) and of this edition, grown page by page to this size by the register in C.
// Gives the refusal that it met, or else 0.
uint32_t empty_file(struct reefcushion_slip *slip, uint8_t *area, uint16_t edition, uint32_t pages, uint32_t cap);
