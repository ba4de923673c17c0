#pragma once
#include <stdint.h>

#include "../../c/reefcushion.h"

// The home of a key in a file of these n0, N, s, edition and P, by the words of the documents and without any thought
// of speed. No side of a comparison uses it.
uint32_t home_of(const struct reefcushion_slip *state, uint64_t key);
