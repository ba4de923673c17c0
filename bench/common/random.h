// Random numbers that can be asked for by their place, so that no list of them has to be kept: SplitMix64 (Steele, Lea
// and Flood, 2014). Of one seed no number comes twice.
#pragma once
#include <stdint.h>

static inline uint64_t mixed(uint64_t z) {
    z = (z ^ z >> 30) * 0xBF58476D1CE4E5B9u;
    z = (z ^ z >> 27) * 0x94D049BB133111EBu;
    return z ^ z >> 31;
}

static inline uint64_t random_at(uint64_t seed, uint64_t place) {
    return mixed(seed + (place + 1) * 0x9E3779B97F4A7C15u);
}
