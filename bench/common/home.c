// Where a key lives, written from the scope and the request for a second edition alone, in their letters.
#include "home.h"

enum { MODULUS = 2147483647 };

// The page that the group of an address grows into where G groups grow from size F on.
static uint32_t new_page(uint32_t address, uint32_t F, uint32_t G, uint32_t s) {
    uint32_t k = G - 1 - address % G;
    uint32_t w = k % s;
    uint32_t left_over = G % s;
    return F + w * (G / s) + (w < left_over ? w : left_over) + k / s;
}

static uint64_t next(uint64_t draw) {
    return 16807 * draw % MODULUS;
}

// In edition 2 step x uses draw x + 10, so ten draws pass before the first step.
uint32_t home_of(const struct reefcushion_slip *state, uint64_t key) {
    uint64_t draw = key % (MODULUS - 1) + 1;
    for (uint32_t unused = state->edition_less_1 == 1 ? 10 : 0; unused; unused--)
        draw = next(draw);
    uint32_t F = (uint32_t)state->n0 * state->groups, G = state->groups;
    uint32_t address = (uint32_t)(key % F);
    for (uint32_t x = 1; F < state->pages; x++) {
        uint32_t turn = (x - 1) % state->n0;
        draw = next(draw);
        if (draw * (state->n0 + turn + 1) <= MODULUS) {
            uint32_t page = new_page(address, F, G, state->sweeps);
            address = page < state->pages ? page : address;
        }
        F += G;
        if (turn == state->n0 - 1u)
            G *= 2;
    }
    return address;
}
