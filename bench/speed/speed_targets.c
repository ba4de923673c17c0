// What ours should come to, and how far it does.
#include <stdio.h>

#include "../common/grouped.h"
#include "speed_figures.h"

static double to_c(const struct figures *at, int call) {
    return at->cost[call].ratio[C];
}

static double to_c_in_step(const struct figures *at, int call) {
    return at->cost[call].ratio[IN_STEP];
}

static double change_in_step(const struct figures *at, int i) {
    return to_c_in_step(at, PUT + i); // put, and remove behind it
}

static double grow_to_check(const struct figures *at, int i) {
    (void)i;
    return at->grow_to_check.of[OURS];
}

static double shrink_to_check(const struct figures *at, int i) {
    (void)i;
    return at->shrink_to_check.of[OURS];
}

static bool any(const struct figures *at) {
    return at->size.compared;
}

static bool large(const struct figures *at) {
    return any(at) && at->size.pages >= 512;
}

static bool random_keys(const struct figures *at) {
    return any(at) && at->style == RANDOM;
}

static bool consecutive_keys(const struct figures *at) {
    return any(at) && at->style != RANDOM;
}

double run_to_single_calls(const struct figures *at, int side) {
    return at->run.ratio[side];
}

double run_to_run(const struct figures *at, int side) {
    return at->run.one_call.ratio[side];
}

static const char *const run_name = "pay run";
const struct target calls_to_c = {"each call", 1.1, "C", to_c, any, call_names, CALLS, 2};
const struct target calls_to_c_in_step = {"each call", 1.1, "C in step", to_c_in_step, any, call_names, CALLS, 2};
const struct target changes_to_c_in_step = {
    "put and remove from 512 pages on", 1.4, "C in step", change_in_step, large, &call_names[PUT], 2, 2};
const struct target random_growths = {
    "a growth with random keys", 1.2, "check", grow_to_check, random_keys, &call_names[GROW], 1, 2};
const struct target consecutive_growths = {
    "a growth with consecutive keys", 1.5, "check", grow_to_check, consecutive_keys, &call_names[GROW], 1, 2};
const struct target shrinks = {"a shrink", 1.5, "check", shrink_to_check, any, &call_names[SHRINK], 1, 2};
const struct target runs_to_single_calls = {
    "a pay run in one call", 1.0, "single calls", run_to_single_calls, any, &run_name, 1, 3};

static int met_by(const struct target *target, const struct figures *at) {
    int met = 0;
    for (int i = 0; i < target->count; i++)
        met += target->of(at, i) <= target->most;
    return met;
}

static void print_missed(const struct target *target, const struct figures *at) {
    const char *between = " ";
    printf("- %s, P %s:", style_names[at->style], grouped(at->size.pages));
    for (int i = 0; i < target->count; i++) {
        if (target->of(at, i) <= target->most)
            continue;
        printf("%s%s %.*f", between, target->names[i], target->places, target->of(at, i));
        between = ", ";
    }
    puts("");
}

struct verdict verdict_on(const struct target *target) {
    struct verdict verdict = {0, 0};
    for (const struct figures *at = figures; at < figures + FILES; at++)
        if (target->asked(at)) {
            verdict.met += met_by(target, at);
            verdict.all += target->count;
        }
    return verdict;
}

void print_verdict(const struct target *target) {
    struct verdict verdict = verdict_on(target);
    printf("\nTarget for %s: at most %.1f times %s. Met by %d of %d.", target->what, target->most, target->beside,
           verdict.met, verdict.all);
    puts(verdict.met < verdict.all ? " Not met:\n" : "");
    for (const struct figures *at = figures; at < figures + FILES; at++)
        if (target->asked(at) && met_by(target, at) < target->count)
            print_missed(target, at);
}

struct range range_of(figure *of, int i) {
    struct range range = {1e9, 0};
    for (const struct figures *at = figures; at < figures + FILES; at++) {
        if (!at->size.compared)
            continue;
        double number = of(at, i);
        range.least = number < range.least ? number : range.least;
        range.most = number > range.most ? number : range.most;
    }
    return range;
}
