// The steps of a file and the draws of a key, for homes one by one and in step and for growth.
#pragma once
#include "baseline_parts.h"

enum { MODULUS = 2147483647, FACTOR = 16807 };
enum { LATER = 10 }; // in edition 2 a step takes its draw so many draws later

// The largest draw that makes a mover where a group has `turn` pages.
static inline int32_t limit_of(uint32_t turn) {
    static const int32_t limit[8] = {MODULUS,     MODULUS / 2, MODULUS / 3, MODULUS / 4,
                                     MODULUS / 5, MODULUS / 6, MODULUS / 7, MODULUS / 8};
    return limit[turn];
}

// Congruent to the next draw, at most 2^31 + 2^15: the last subtraction is left out, see `moves`.
static inline uint32_t next_draw(uint32_t draw) {
    uint64_t product = (uint64_t)draw * FACTOR;
    return (uint32_t)((product & MODULUS) + (product >> 31));
}

// A draw is never 0, so one past the modulus stands for a small one, and as a signed number it is below every limit.
static inline bool moves(uint32_t draw, int32_t limit) {
    return (int32_t)draw <= limit;
}

// Draw x of a seed in one step: the seed times power x of the factor. The product has 62 bits and is folded twice. One
// draw is quicker so; for all draws of a key, each from the one before, the shorter product is. A file has 40 steps
// at most, so draw 50 is the last.
static inline uint32_t draw_of(uint32_t seed, uint32_t x) {
    static const uint32_t power[51] = {
        1, 16807, 282475249, 1622650073, 984943658, 1144108930, 470211272, 101027544,
        1457850878, 1458777923, 2007237709, 823564440, 1115438165, 1784484492, 74243042, 114807987,
        1137522503, 1441282327, 16531729, 823378840, 143542612, 896544303, 1474833169, 1264817709,
        1998097157, 1817129560, 1131570933, 197493099, 1404280278, 893351816, 1505795335, 1954899097,
        1636807826, 563613512, 101929267, 1580723810, 704877633, 1358580979, 1624379149, 2128236579,
        784558821, 530511967, 2110010672, 1551901393, 1617819336, 1399125485, 156091745, 1356425228,
        1899894091, 585640194, 937186357,
    };
    uint64_t product = (uint64_t)seed * power[x];
    uint32_t sum = (uint32_t)(product & MODULUS) + (uint32_t)(product >> 31);
    return (sum & MODULUS) + (sum >> 31);
}

static inline uint32_t seed_of(uint64_t key) {
    return (uint32_t)(key % (MODULUS - 1)) + 1;
}

// What the draw of a key's first step comes from, where steps take their draws so many later: the seed, or else the
// last draw that no step takes.
static inline uint32_t draw_at_start(uint64_t key, uint32_t later) {
    return later ? draw_of(seed_of(key), later) : seed_of(key);
}

// key mod (n0 x N): the quotient by the inverse is right or one too small. Standard C has no number of 128 bits to take
// the upper half of a product from; clang and gcc have this one.
static inline uint32_t start_of(const struct way *way, uint64_t key) {
    uint64_t quotient = (uint64_t)((unsigned __int128)key * way->inverse >> 64);
    uint32_t rest = (uint32_t)(key - quotient * way->first.size);
    return rest >= way->first.size ? rest - way->first.size : rest;
}

// Goes on to the next partial expansion, and says whether the groups doubled.
static inline bool next_step(const struct way *way, struct step *step) {
    step->size += step->groups;
    step->turn++;
    if (step->turn < 2 * way->n0)
        return false;
    step->turn = way->n0;
    step->groups *= 2;
    step->more *= 2;
    bool one_more = step->more >= way->sweeps;
    step->each = step->each * 2 + one_more;
    step->more -= one_more ? way->sweeps : 0;
    return true;
}
