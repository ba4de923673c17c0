// The calls that are timed one by one: find, put and remove, check, grow and shrink.
#include "speed_rounds.h"

enum { MOST_BATCH = 64 };
static uint32_t row[SIDES][MOST_PAGES];

BATCH(ours_find, reefcushion_find(SLIP, AREA, key[i]))
BATCH(ours_put, reefcushion_put(SLIP, AREA, key[i], ~key[i]))
BATCH(ours_remove, reefcushion_remove(SLIP, AREA, key[i]))
BATCH(ours_check, reefcushion_check(SLIP, AREA))
BATCH(ours_grow, reefcushion_grow(SLIP, AREA, row[OURS], file->slip.cap))
BATCH(ours_shrink, reefcushion_shrink(SLIP, AREA))
BATCH(plain_find, baseline_find(&file->slip, AREA, key[i]))
BATCH(plain_put, baseline_put(&file->slip, AREA, key[i], ~key[i]))
BATCH(plain_remove, baseline_remove(&file->slip, AREA, key[i]))
BATCH(plain_check, baseline_check(&file->slip, AREA))
BATCH(plain_grow, baseline_grow(&file->slip, AREA, row[baseline_in_step ? IN_STEP : C], file->slip.cap))
BATCH(plain_shrink, baseline_shrink(&file->slip, AREA))

// So few calls a batch that the load of a small file hardly changes.
static uint32_t batch_size(const struct files *files) {
    uint32_t size = files->first.slip.pages / 4;
    return size < 4 ? 4 : size > MOST_BATCH ? MOST_BATCH : size;
}

struct cost time_find(struct files *files, bool hit, unsigned rounds) {
    static struct timing find = {.ours = ours_find, .plain = plain_find};
    uint64_t key[MOST_BATCH];
    const uint32_t count = batch_size(files);
    find.rounds = 0;
    for (rounds = held_to(rounds); rounds; rounds--) {
        if (hit)
            any_held(files, key, count);
        else
            next_fresh(files, key, count);
        time_round(&find, files, key, count, hit ? 0 : REEFCUSHION_ABSENT * count);
    }
    require_same_files(files);
    return cost_of(&find, count);
}

// The keys put in a round are removed in it, so that every round has the same file. They are chosen before the first
// round.
void time_put_and_remove(struct files *files, unsigned rounds, struct cost *put_cost, struct cost *remove_cost) {
    static struct timing put = {.ours = ours_put, .plain = plain_put};
    static struct timing remove = {.ours = ours_remove, .plain = plain_remove};
    static uint64_t key[MOST_ROUNDS][MOST_BATCH];
    const uint32_t count = batch_size(files);
    put.rounds = remove.rounds = 0;
    rounds = held_to(rounds);
    for (unsigned round = 0; round < rounds; round++)
        next_with_room(files, key[round], count);
    for (unsigned round = 0; round < rounds; round++) {
        time_round(&put, files, key[round], count, 0);
        if (round + 1 == rounds)
            require_same_files(files);
        time_round(&remove, files, key[round], count, 0);
    }
    require_same_files(files);
    if (!same_file(&files->of[OURS], &files->first))
        stop("what was put wasn't removed");
    *put_cost = cost_of(&put, count);
    *remove_cost = cost_of(&remove, count);
}

struct cost time_check(struct files *files, unsigned rounds) {
    static struct timing check = {.ours = ours_check, .plain = plain_check};
    check.rounds = 0;
    for (rounds = held_to(rounds); rounds; rounds--)
        time_round(&check, files, NULL, 1, 0);
    require_same_files(files);
    return cost_of(&check, 1);
}

static void require_same_rows(uint32_t cap) {
    if (memcmp(row[OURS], row[C], sizeof row[0][0] * cap) || memcmp(row[OURS], row[IN_STEP], sizeof row[0][0] * cap))
        stop("two rows differ");
}

// Each round checks the file as it was at first, then grows or shrinks it; it is restored outside the timed parts. A
// shrink leaves the rows alone.
static struct cost time_resize(struct timing *resize, struct files *files, unsigned rounds, struct cost *to_check) {
    static struct timing check = {.ours = ours_check, .plain = plain_check};
    check.rounds = resize->rounds = 0;
    for (rounds = held_to(rounds); rounds; rounds--) {
        restore(files);
        time_round(&check, files, NULL, 1, 0);
        time_round(resize, files, NULL, 1, 0);
        require_same_files(files);
        require_same_rows(files->first.slip.cap);
    }
    restore(files);
    for (int side = 0; side < SIDES; side++)
        to_check->of[side] = median(resize->of[side], check.of[side], resize->rounds);
    return cost_of(resize, 1);
}

struct cost time_grow(struct files *files, unsigned rounds, struct cost *to_check) {
    static struct timing grow = {.ours = ours_grow, .plain = plain_grow};
    return time_resize(&grow, files, rounds, to_check);
}

struct cost time_shrink(struct files *files, unsigned rounds, struct cost *to_check) {
    static struct timing shrink = {.ours = ours_shrink, .plain = plain_shrink};
    return time_resize(&shrink, files, rounds, to_check);
}

enum { READINGS = 2000 };

static uint32_t read_by_find(struct files *files) {
    uint64_t key;
    any_held(files, &key, 1);
    ours_find(&files->of[OURS], &key, 1);
    return files->of[OURS].slip.read;
}

static uint32_t read_by_put(struct files *files) {
    uint64_t key;
    next_with_room(files, &key, 1);
    ours_put(&files->of[OURS], &key, 1);
    uint32_t read = files->of[OURS].slip.read;
    ours_remove(&files->of[OURS], &key, 1);
    return read;
}

double pages_read(struct files *files, bool by_put) {
    unsigned long pages = 0;
    for (int i = 0; i < READINGS; i++)
        pages += by_put ? read_by_put(files) : read_by_find(files);
    restore(files);
    return (double)pages / READINGS;
}
