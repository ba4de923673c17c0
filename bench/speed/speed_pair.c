// A second file for comparisons and merges, and checks of both files.
#include "speed_pair.h"
#include "../common/empty.h"

struct files second;

enum side plain_side(void) {
    return baseline_in_step ? IN_STEP : C;
}

static uint32_t check_ours(struct file *file) {
    return reefcushion_check(SLIP, AREA);
}

static uint32_t check_plain(struct file *file) {
    return baseline_check(&file->slip, AREA);
}

BATCH(ours_checks, check_ours(file) + check_ours(&second.of[OURS]))
BATCH(plain_checks, check_plain(file) + check_plain(&second.of[plain_side()]))
struct timing checks_of_both = {.ours = ours_checks, .plain = plain_checks};

struct file empty_like_others(void) {
    struct file file = new_file(MOST_PAGES);
    if (empty_file(&file.slip, file.area, 1, MOST_PAGES, MOST_PAGES))
        stop("no empty file");
    return file;
}

struct file empty_unlike_others(void) {
    static uint32_t row[MOST_PAGES];
    struct file new = new_file(MOST_PAGES), *file = &new;
    uint32_t refusal = baseline_format(&file->slip, AREA, 3, 16, 2, MOST_PAGES, 2);
    while (!refusal && file->slip.pages < MOST_PAGES)
        refusal = baseline_grow(&file->slip, AREA, row, MOST_PAGES);
    if (refusal)
        stop("no empty file of other parameters");
    return new;
}

void put_into(struct file *file, uint64_t key, uint64_t value) {
    if (baseline_put(&file->slip, AREA, key, value))
        stop("no room in a file that is made");
}
