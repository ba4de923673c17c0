// A pay run in one call, beside the same puts call by call.
#include "../common/run.h"
#include "speed_rounds.h"

static struct reefcushion_put_record records[RUN_PUTS];
static struct reefcushion_reply replies[SIDES][RUN_PUTS];

static uint32_t plain_put_run(struct file *file) {
    uint8_t *room = (uint8_t *)replies[baseline_in_step ? IN_STEP : C];
    return baseline_put_run(&file->slip, AREA, (const uint8_t *)records, sizeof records, room, sizeof replies[C]);
}

BATCH(ours_run, reefcushion_put_run(SLIP, AREA, records, sizeof records, replies[OURS], sizeof replies[OURS]))
BATCH(ours_singles, reefcushion_put(SLIP, AREA, key[i], ~key[i]))
BATCH(plain_run, plain_put_run(file))
BATCH(plain_singles, baseline_put(&file->slip, AREA, key[i], ~key[i]))

static void require_right_replies(void) {
    for (int i = 0; i < RUN_PUTS; i++)
        if (replies[OURS][i].refusal)
            stop("a put of a run was refused");
    for (int side = C; side < SIDES; side++)
        if (memcmp(replies[OURS], replies[side], sizeof replies[side]))
            stop("two sides gave different replies");
}

// Every two rounds as one. The way that goes second in a round is the quicker by a percent or two, having the same
// branches to take again, and in the next round it goes first.
static void pair_rounds(struct timing *timing) {
    timing->rounds /= 2;
    for (int side = 0; side < SIDES; side++)
        for (unsigned i = 0; i < timing->rounds; i++)
            timing->of[side][i] = (timing->of[side][2 * i] + timing->of[side][2 * i + 1]) / 2;
}

// Each round takes other records out of the file, and every side puts them there again from the same bytes on, in two
// ways: in one call and call by call. Either way the file has to be what it was.
struct run_cost time_run(struct files *files, unsigned rounds) {
    static struct timing run = {.ours = ours_run, .plain = plain_run};
    static struct timing singles = {.ours = ours_singles, .plain = plain_singles};
    static uint64_t key[RUN_PUTS];
    run.rounds = singles.rounds = 0;
    for (rounds = held_to(rounds); rounds; rounds--) {
        take_out(files, key, RUN_PUTS);
        for (int i = 0; i < RUN_PUTS; i++)
            records[i] = put_record(key[i], ~key[i]);
        for (unsigned turn = 0; turn < 2; turn++) {
            restore(files);
            if ((rounds + turn) % 2)
                time_round(&run, files, NULL, 1, 0);
            else
                time_round(&singles, files, key, RUN_PUTS, 0);
            require_same_files(files);
        }
        require_right_replies();
        put_back(files, key, RUN_PUTS);
    }
    pair_rounds(&run);
    pair_rounds(&singles);
    struct run_cost cost = {.one_call = cost_of(&run, RUN_PUTS), .single_calls = cost_of(&singles, RUN_PUTS)};
    for (int side = 0; side < SIDES; side++)
        cost.ratio[side] = median(run.of[side], singles.of[side], run.rounds);
    return cost;
}
