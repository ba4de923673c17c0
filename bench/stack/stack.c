// The stack that each call of c/reefcushion.h takes at most: stack. It prints a line a call, the name and the bytes.
//
// A call is made on a stack of its own, which was painted before, and the deepest word that is no longer as it was
// painted says how far the call went; its return address and the arguments that go by the stack are counted too. What
// isn't seen is room at the deep end that is set aside and never written, and a path that none of the files below
// takes. tools/stack holds the figures against what the header says.
#include <stdbool.h>
#include <stdio.h>
#include <stdlib.h>
#include <string.h>

#include "../common/page.h"
#include "../common/random.h"
#include "../common/run.h"

enum { STACK_WORDS = 1 << 15, BATCH = 24576, RUN = 64, LIST_BYTES = 2 * MOST_PAGES * SLOTS * SLOT_BYTES + 16 };

// A file to make the calls on. Growth is tried with one page more than these, and gives the answer that is told here.
struct scene {
    const char *name;
    uint16_t n0, groups, sweeps, edition, pages, cap;
    uint32_t records;
    bool upward;
    enum reefcushion_refusal grown;
};

static const struct scene scenes[] = {
    {"random keys", 2, 8, 5, 1, 4095, MOST_PAGES, 38000, false, REEFCUSHION_ACCEPTED},
    {"upward keys, edition 2", 2, 8, 5, 2, 4000, MOST_PAGES, 38000, true, REEFCUSHION_ACCEPTED},
    {"upward keys, most numbers of the state", 4, 64, 8, 1, 256, MOST_PAGES, 39000, true, REEFCUSHION_ACCEPTED},
    {"a quarter of some records moves", 3, 1, 1, 2, 3, MOST_PAGES, 1000, false, REEFCUSHION_ACCEPTED},
    {"half of many records with one home moves", 1, 1, 1, 2, 1, MOST_PAGES, 24000, false, REEFCUSHION_ACCEPTED},
    {"all of many records with one home move", 1, 1, 1, 1, 1, MOST_PAGES, 24000, true, REEFCUSHION_ACCEPTED},
    {"all slots taken", 1, 1, 1, 2, 1, MOST_PAGES, MOST_PAGES *SLOTS, false, REEFCUSHION_ACCEPTED},
    {"no room to grow", 1, 1, 1, 1, 1, 2, 2 * SLOTS, true, REEFCUSHION_NO_ROOM},
    {"all pages grown to", 1, 1, 1, 1, 2, 2, 1, false, REEFCUSHION_AT_CAP},
};

struct side {
    struct reefcushion_slip slip;
    uint8_t area[MOST_PAGES * PAGE_BYTES];
};

// What the calls are given. They take it from here, since a call on the painted stack has no other way to get it.
static struct scene scene;
static struct side living, other;
static uint64_t key, value;
static uint32_t row[MOST_PAGES];
static struct reefcushion_put_record run[RUN];
static struct reefcushion_reply replies[RUN];
static struct reefcushion_comparison comparison;
static uint8_t list[LIST_BYTES];
static size_t list_bytes;

#define SLIP(side) &side.slip, sizeof side.slip
#define AREA(side) side.area, page_start(side.slip.cap)
#define FRESH(side) side.area, page_start(scene.cap), scene.n0, scene.groups, scene.sweeps, scene.cap

static uint32_t make_format_edition(void) {
    return reefcushion_format_edition(SLIP(living), FRESH(living), scene.edition);
}

static uint32_t make_format(void) {
    return reefcushion_format(SLIP(living), FRESH(living));
}

static uint32_t make_find(void) {
    return reefcushion_find(SLIP(living), AREA(living), key);
}

static uint32_t make_put(void) {
    return reefcushion_put(SLIP(living), AREA(living), key, value);
}

static uint32_t make_put_run(void) {
    return reefcushion_put_run(SLIP(living), AREA(living), run, sizeof run, replies, sizeof replies);
}

static uint32_t make_remove(void) {
    return reefcushion_remove(SLIP(living), AREA(living), key);
}

static uint32_t make_grow(void) {
    return reefcushion_grow(SLIP(living), AREA(living), row, living.slip.cap);
}

static uint32_t make_shrink(void) {
    return reefcushion_shrink(SLIP(living), AREA(living));
}

static uint32_t make_check(void) {
    return reefcushion_check(SLIP(living), AREA(living));
}

static uint32_t make_compare(void) {
    return reefcushion_compare(SLIP(living), AREA(living), SLIP(other), AREA(other), list, list_bytes, &comparison,
                               sizeof comparison);
}

static uint32_t make_merge(void) {
    return reefcushion_merge(SLIP(living), AREA(living), SLIP(other), AREA(other), row, living.slip.cap);
}

static uint32_t make_due(void) {
    return reefcushion_due(SLIP(living));
}

enum call { FORMAT_EDITION, FORMAT, FIND, PUT, PUT_RUN, REMOVE, GROW, SHRINK, CHECK, COMPARE, MERGE, DUE, CALLS };

static const struct {
    const char *name;
    uint32_t (*make)(void);
} calls[CALLS] = {
    [FORMAT_EDITION] = {"reefcushion_format_edition", make_format_edition},
    [FORMAT] = {"reefcushion_format", make_format},
    [FIND] = {"reefcushion_find", make_find},
    [PUT] = {"reefcushion_put", make_put},
    [PUT_RUN] = {"reefcushion_put_run", make_put_run},
    [REMOVE] = {"reefcushion_remove", make_remove},
    [GROW] = {"reefcushion_grow", make_grow},
    [SHRINK] = {"reefcushion_shrink", make_shrink},
    [CHECK] = {"reefcushion_check", make_check},
    [COMPARE] = {"reefcushion_compare", make_compare},
    [MERGE] = {"reefcushion_merge", make_merge},
    [DUE] = {"reefcushion_due", make_due},
};

static size_t most[CALLS]; // bytes that each call took at most, so far

static _Noreturn void stop(const char *why, uint32_t number) {
    fprintf(stderr, "stack: %s: %s (%u)\n", scene.name, why, number);
    exit(1);
}

// Makes a call with the stack pointer at `top`, and comes back to the stack that there was.
static uint32_t made_at(uint64_t *top, uint32_t (*make)(void)) {
    uint64_t answer;
    __asm__ volatile("movq %%rsp, %%rbx\n\t"
                     "movq %[top], %%rsp\n\t"
                     "callq *%[make]\n\t"
                     "movq %%rbx, %%rsp"
                     : "=a"(answer)
                     : [top] "r"(top), [make] "r"(make)
                     : "rbx", "rcx", "rdx", "rsi", "rdi", "r8", "r9", "r10", "r11", "xmm0", "xmm1", "xmm2", "xmm3",
                       "xmm4", "xmm5", "xmm6", "xmm7", "xmm8", "xmm9", "xmm10", "xmm11", "xmm12", "xmm13", "xmm14",
                       "xmm15", "cc", "memory");
    return (uint32_t)answer;
}

// Makes a call on the painted stack, which has to give this answer, and keeps how much it took if that is the most.
static void measure(enum call call, uint32_t expected) {
    static _Alignas(16) uint64_t stack[STACK_WORDS];
    for (uint32_t word = 0; word < STACK_WORDS; word++)
        stack[word] = random_at(1985, word);
    uint32_t answer = made_at(stack + STACK_WORDS, calls[call].make);
    if (answer != expected)
        stop(calls[call].name, answer);
    uint32_t untouched = 0;
    while (untouched < STACK_WORDS && stack[untouched] == random_at(1985, untouched))
        untouched++;
    if (untouched < STACK_WORDS / 8)
        stop("the painted stack is too small for a call", untouched);
    size_t used = sizeof stack[0] * (STACK_WORDS - untouched);
    most[call] = used > most[call] ? used : most[call];
}

static uint64_t key_at(uint32_t place) {
    return scene.upward ? place : random_at(1, place);
}

// The other file gets so many of the scene's records, from this place on. It is as wide as can be, so that puts are
// quick. The pages of an empty file are the same at every size, so it is grown by a word.
static void lay_other(uint32_t from, uint32_t records) {
    memset(&other.slip, 0, sizeof other.slip);
    uint32_t refusal = reefcushion_format_edition(SLIP(other), other.area, sizeof other.area, 2, 8, 5, MOST_PAGES, 2);
    other.slip.pages = MOST_PAGES - MOST_PAGES / 16;
    for (uint32_t place = from; !refusal && place < from + records; place++)
        refusal = reefcushion_put(SLIP(other), AREA(other), key_at(place), place);
    if (refusal)
        stop("the other file can't be laid", refusal);
}

// The scene's file comes about by merges, since puts one by one into a file with one home take too long.
static void lay_living(void) {
    memset(&living.slip, 0, sizeof living.slip);
    measure(FORMAT, REEFCUSHION_ACCEPTED);
    measure(FORMAT_EDITION, REEFCUSHION_ACCEPTED);
    living.slip.pages = scene.pages;
    for (uint32_t from = 0; from < scene.records; from += BATCH) {
        uint32_t left = scene.records - from;
        lay_other(from, left < BATCH ? left : BATCH);
        measure(MERGE, REEFCUSHION_ACCEPTED);
    }
}

// The calls for one key: a record that is held, and one that isn't, which comes and goes where there is room.
static void measure_keys(bool room) {
    key = key_at(scene.records / 2), value = scene.records / 2;
    measure(FIND, REEFCUSHION_ACCEPTED);
    measure(PUT, REEFCUSHION_HELD);
    measure(REMOVE, REEFCUSHION_ACCEPTED);
    measure(PUT, REEFCUSHION_ACCEPTED);
    value++;
    measure(PUT, REEFCUSHION_CLASH);
    key = key_at(scene.records);
    measure(FIND, REEFCUSHION_ABSENT);
    measure(REMOVE, REEFCUSHION_ABSENT);
    measure(PUT, room ? REEFCUSHION_ACCEPTED : REEFCUSHION_NO_ROOM);
    if (room)
        measure(REMOVE, REEFCUSHION_ACCEPTED);
}

// A pay run of fresh records, as far as there is room. What it put goes again.
static void measure_run(void) {
    for (uint32_t i = 0; i < RUN; i++)
        run[i] = put_record(key_at(scene.records + i), i);
    measure(PUT_RUN, REEFCUSHION_ACCEPTED);
    for (uint32_t i = 0; i < RUN; i++) {
        key = run[i].key;
        if (replies[i].refusal == REEFCUSHION_ACCEPTED)
            measure(REMOVE, REEFCUSHION_ACCEPTED);
    }
}

static void measure_compare(uint32_t room, enum reefcushion_refusal expected) {
    list_bytes = room;
    measure(COMPARE, expected);
}

// Comparisons and merges: with the same file; with one that has another value, one record less and one more; and, for
// comparisons, with one that holds nothing of the first.
static void measure_pairs(void) {
    other = living;
    measure_compare(LIST_BYTES, REEFCUSHION_ACCEPTED);
    measure(MERGE, REEFCUSHION_ACCEPTED);
    const uint64_t gone[2] = {key_at(0), key_at(scene.records - 1)};
    for (int i = 0; i < 2; i++)
        reefcushion_remove(SLIP(other), AREA(other), gone[i]);
    reefcushion_put(SLIP(other), AREA(other), gone[0], UINT64_MAX);
    reefcushion_put(SLIP(other), AREA(other), key_at(scene.records), 0);
    measure_compare(0, REEFCUSHION_WRONG_ROOM);
    measure_compare(LIST_BYTES, REEFCUSHION_ACCEPTED);
    measure(MERGE, REEFCUSHION_CLASH);
    lay_other(scene.records, BATCH);
    measure_compare(0, REEFCUSHION_WRONG_ROOM);
    measure_compare(LIST_BYTES, REEFCUSHION_ACCEPTED);
}

// Growth and what undoes it. Where a scene says that many records move, they have to.
static void measure_sizes(void) {
    measure(GROW, scene.grown);
    if (scene.grown)
        return;
    if (scene.pages <= 3 && 5 * living.slip.moved < scene.records)
        stop("a growth moved fewer records than it should", living.slip.moved);
    measure(SHRINK, REEFCUSHION_ACCEPTED);
}

// A wrong count and a broken page, the last one.
static void measure_refused(void) {
    static const enum call whole[4] = {CHECK, COMPARE, MERGE, GROW};
    const int calls_met = scene.grown == REEFCUSHION_AT_CAP ? 3 : 4;
    living.slip.records--;
    for (int i = 0; i < calls_met; i++)
        measure(whole[i], REEFCUSHION_NOT_IMAGE);
    living.slip.records++;
    uint8_t *head_end = &living.area[page_start(living.slip.cap - 1u) + HEAD_BYTES - 1];
    *head_end = 1;
    for (int i = 0; i < calls_met; i++)
        measure(whole[i], REEFCUSHION_BROKEN);
    *head_end = 0;
}

static void visit(void) {
    const uint32_t slots = (uint32_t)SLOTS * scene.cap;
    lay_living();
    measure(CHECK, REEFCUSHION_ACCEPTED);
    measure(DUE, 5 * scene.records > 48u * scene.pages);
    measure_keys(scene.records < slots);
    measure_run();
    measure_sizes();
    measure_pairs();
    measure_refused();
    measure(MERGE, other.slip.records <= slots - scene.records ? REEFCUSHION_ACCEPTED : REEFCUSHION_NO_ROOM);
}

// The first call of a function of C goes through the loader, and what that takes of the stack isn't the library's. So
// both that the library calls are called once before, with a size that the compiler can't know.
static void meet_loader(void) {
    volatile size_t size = sizeof row;
    memcpy(list, row, size);
    memset(list, 0, size);
}

int main(void) {
    meet_loader();
    for (size_t i = 0; i < sizeof scenes / sizeof scenes[0]; i++) {
        scene = scenes[i];
        visit();
    }
    for (int call = 0; call < CALLS; call++)
        printf("%s %zu\n", calls[call].name, most[call]);
    return 0;
}
