// One call made to the proved side and to the plain side, with everything compared afterwards.
#include <stdio.h>
#include <stdlib.h>
#include <string.h>

#include "../common/grouped.h"
#include "agree.h"

// The answers that calls give, by number; 11 and 12 are the log's own.
enum { ANSWERS = 14, LARGEST = 15 };
static const uint32_t answers[ANSWERS] = {0, 1, 2, 3, 4, 5, 6, 7, 8, 9, 10, 13, 14, LARGEST};
struct side ours, plain;
unsigned long calls_made, runs_made, puts_in_runs, ways_there_and_back;

static const char *const names[ROWS] = {
    "format",
    "format of an edition",
    "find",
    "put",
    "remove",
    "grow",
    "shrink",
    "check",
    "due",
    "pay run",
    "put in a run",
    "compare",
    "compare (second file)",
    "merge",
    "merge (second file)",
};
static unsigned long seen[2][ROWS][LARGEST + 1]; // by the way that the plain side worked

// The refusals that each call gives by the documents, as bits; for due its two answers.
enum { OF_FORMAT = 1 << 0 | 1 << 1 | 1 << 2 };
enum { OF_PUT = 1 << 0 | 1 << 1 | 1 << 2 | 1 << 4 | 1 << 6 | 1 << 7 | 1 << 9 | 1 << 13 };
static const unsigned expected[ROWS] = {
    OF_FORMAT,
    OF_FORMAT,
    1 << 0 | 1 << 1 | 1 << 2 | 1 << 4 | 1 << 5,
    OF_PUT,
    1 << 0 | 1 << 1 | 1 << 2 | 1 << 4 | 1 << 5 | 1 << 9,
    1 << 0 | 1 << 1 | 1 << 2 | 1 << 3 | 1 << 4 | 1 << 7 | 1 << 8 | 1 << 9,
    1 << 0 | 1 << 1 | 1 << 2 | 1 << 4 | 1 << 9 | 1 << 14,
    1 << 0 | 1 << 1 | 1 << 2 | 1 << 4 | 1 << 9,
    1 << 0 | 1 << 1,
    1 << 0 | 1 << 10 | 1 << 15,
    OF_PUT,
    1 << 0 | 1 << 1 | 1 << 2 | 1 << 4 | 1 << 9 | 1 << 15,
    1 << 1 | 1 << 2 | 1 << 4 | 1 << 9,
    1 << 0 | 1 << 1 | 1 << 2 | 1 << 3 | 1 << 4 | 1 << 7 | 1 << 9 | 1 << 13,
    1 << 1 | 1 << 2 | 1 << 4 | 1 << 9,
};

void differ(int row, const char *what, unsigned long left, unsigned long right) {
    const struct reefcushion_slip *at = &plain.slip;
    fprintf(stderr, "%s: %s: ours %lu, plain %lu; the plain slip says n0 %u N %u s %u P %u cap %u edition %u r %u\n",
            names[row], what, left, right, at->n0, at->groups, at->sweeps, at->pages, at->cap, at->edition_less_1 + 1u,
            at->records);
    exit(1);
}

void compare_bytes(int row, const char *what, const void *left, const void *right, size_t bytes) {
    const uint8_t *l = left, *r = right;
    size_t at = 0;
    if (!memcmp(left, right, bytes))
        return;
    while (l[at] == r[at])
        at++;
    fprintf(stderr, "byte %lu of ", (unsigned long)at);
    differ(row, what, l[at], r[at]);
}

// The part of the room that is lent, which may be nowhere where nothing is lent.
static uint8_t *lent_room(struct side *side, const struct asked *ask) {
    return ask->room_bytes || ask->room_at ? side->room + ask->room_at : NULL;
}

static uint32_t ask_ours(enum call call, const struct asked *ask, struct reefcushion_slip *slip, size_t length) {
    switch (call) {
    case FORMAT:
        return reefcushion_format(slip, length, ours.area, ask->bytes, ask->n0, ask->groups, ask->sweeps, ask->cap);
    case FORMAT_EDITION:
        return reefcushion_format_edition(slip, length, ours.area, ask->bytes, ask->n0, ask->groups, ask->sweeps,
                                          ask->cap, ask->edition);
    case FIND: return reefcushion_find(slip, length, ours.area, ask->bytes, ask->key);
    case PUT: return reefcushion_put(slip, length, ours.area, ask->bytes, ask->key, ask->value);
    case REMOVE: return reefcushion_remove(slip, length, ours.area, ask->bytes, ask->key);
    case GROW: return reefcushion_grow(slip, length, ours.area, ask->bytes, ours.row, ask->counts);
    case SHRINK: return reefcushion_shrink(slip, length, ours.area, ask->bytes);
    case CHECK: return reefcushion_check(slip, length, ours.area, ask->bytes);
    case PUT_RUN:
        return reefcushion_put_run(slip, length, ours.area, ask->bytes, ask->records, ask->records_bytes,
                                   lent_room(&ours, ask), ask->room_bytes);
    default: return reefcushion_due(slip, length);
    }
}

// A format that names no edition is one of edition 1.
static uint32_t ask_plain(enum call call, const struct asked *ask) {
    struct reefcushion_slip *slip = &plain.slip;
    const uint16_t edition = call == FORMAT ? 1 : ask->edition;
    baseline_in_step = ask->in_step;
    switch (call) {
    case FORMAT:
    case FORMAT_EDITION:
        return baseline_format(slip, plain.area, ask->bytes, ask->n0, ask->groups, ask->sweeps, ask->cap, edition);
    case FIND: return baseline_find(slip, plain.area, ask->bytes, ask->key);
    case PUT: return baseline_put(slip, plain.area, ask->bytes, ask->key, ask->value);
    case REMOVE: return baseline_remove(slip, plain.area, ask->bytes, ask->key);
    case GROW: return baseline_grow(slip, plain.area, ask->bytes, plain.row, ask->counts);
    case SHRINK: return baseline_shrink(slip, plain.area, ask->bytes);
    case CHECK: return baseline_check(slip, plain.area, ask->bytes);
    case PUT_RUN:
        return baseline_put_run(slip, plain.area, ask->bytes, ask->records, ask->records_bytes, lent_room(&plain, ask),
                                ask->room_bytes);
    default: return baseline_due(slip);
    }
}

// A page beyond the file is compared too, since nothing may be written there. Only a run is lent the room.
static void compare_sides(enum call call, uint32_t left, uint32_t right, size_t bytes) {
    size_t pages = bytes / PAGE_BYTES < MOST ? bytes / PAGE_BYTES + 1 : MOST + 1;
    if (left != right)
        differ(call, "the result", left, right);
    compare_bytes(call, "the slip", &ours.slip, &plain.slip, sizeof plain.slip);
    compare_bytes(call, "the area", ours.area, plain.area, page_start((uint32_t)pages));
    compare_bytes(call, "the row", ours.row, plain.row, sizeof plain.row);
    if (call == PUT_RUN)
        compare_bytes(call, "the room for replies", ours.room, plain.room, sizeof plain.room);
}

void see(int row, uint32_t refusal, bool in_step) {
    if (refusal > LARGEST || !(expected[row] >> refusal & 1))
        differ(row, "a refusal that isn't given here", refusal, refusal);
    seen[in_step][row][refusal]++;
}

static void see_replies(const struct asked *asked) {
    for (size_t at = 0; at < asked->room_bytes; at += REPLY_BYTES) {
        struct reefcushion_reply reply;
        memcpy(&reply, plain.room + asked->room_at + at, REPLY_BYTES);
        see(PUT_IN_RUN, reply.refusal, asked->in_step);
        puts_in_runs++;
    }
}

uint32_t ask(enum call call, const struct asked *asked) {
    uint32_t left = ask_ours(call, asked, &ours.slip, sizeof ours.slip), right = ask_plain(call, asked);
    compare_sides(call, left, right, asked->bytes);
    see(call, right, asked->in_step);
    if (call == PUT_RUN && right == REEFCUSHION_ACCEPTED)
        see_replies(asked);
    calls_made++;
    runs_made += call == PUT_RUN;
    return right;
}

void ask_there_and_back(enum call there, enum call back, const struct asked *asked) {
    static struct side before;
    before = plain;
    if (ask(there, asked))
        return;
    if (ask(back, asked) || memcmp(&before.slip, &plain.slip, offsetof(struct reefcushion_slip, value)) ||
        memcmp(before.area, plain.area, sizeof plain.area)) {
        fprintf(stderr, "%s, then %s: the file isn't what it was\n", names[there], names[back]);
        exit(1);
    }
    ways_there_and_back++;
}

void ask_with_wrong_slip(const struct asked *asked) {
    for (int call = 0; call < CALLS; call++) {
        size_t length = call % 2 ? sizeof ours.slip - 1 : sizeof ours.slip + 1;
        struct {
            struct reefcushion_slip slip;
            uint8_t more;
        } longer = {.slip = plain.slip};
        uint32_t result = ask_ours(call, asked, &longer.slip, length);
        if (result != (call == DUE ? 0 : REEFCUSHION_NO_SLIP))
            differ(call, "the result for a slip of another length", result, REEFCUSHION_NO_SLIP);
        compare_bytes(call, "a slip of another length", &longer.slip, &plain.slip, sizeof plain.slip);
        compare_sides(call, 0, 0, asked->bytes);
    }
}

// A cell of the table; whether it was reached in both ways if the call gives that answer.
static bool tell_cell(int row, uint32_t refusal) {
    unsigned long key_by_key = seen[false][row][refusal], in_step = seen[true][row][refusal];
    bool given = expected[row] >> refusal & 1;
    if (given)
        printf(" %s |", grouped((double)(key_by_key + in_step)));
    else
        printf("  |");
    return !given || (key_by_key && in_step);
}

bool tell_what_was_seen(void) {
    bool all = true;
    puts("| call | 0 | 1 | 2 | 3 | 4 | 5 | 6 | 7 | 8 | 9 | 10 | 13 | 14 | 15 |");
    puts("|---|--:|--:|--:|--:|--:|--:|--:|--:|--:|--:|--:|--:|--:|--:|");
    for (int row = 0; row < ROWS; row++) {
        printf("| %s |", names[row]);
        for (uint32_t i = 0; i < ANSWERS; i++)
            all &= tell_cell(row, answers[i]);
        puts("");
    }
    if (all)
        puts("\nNothing differed. Every answer that a call gives was met with either way of C, and no other.");
    else
        puts("\nNothing differed, but with one way of C an answer that a call gives wasn't met.");
    return all;
}
