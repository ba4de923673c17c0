// One file merged into another: how long ours takes, beside C, a check of both files, a growth and a put for each
// record.
#include <stdio.h>
#include <stdlib.h>

#include "../baseline/baseline_parts.h"
#include "../common/grouped.h"
#include "../common/random.h"
#include "speed_figures.h"
#include "speed_pair.h"

enum { PAGES = MOST_PAGES, SLOTS_IN_ALL = SLOTS * PAGES, MERGE_ROUNDS = 3, FEW_PUTS = 12 };
enum { RECORDS = 48 * PAGES / 5 / 4 * 4 }; // of both files, so that each of four parts has as many

enum { STRANGERS, HALF, SAME, REFILED, FULL, ONE_HOME, CASES };

// What is merged. The keys of a case are told off in fours: the living file holds the first and the third of each four,
// and the other file those whose bit is set here.
static const struct {
    const char *name;
    uint32_t keys;
    unsigned other;
} cases[CASES] = {{"no key in common", RECORDS, 0xA},
                  {"half in common", RECORDS, 0x3},
                  {"all in common", RECORDS, 0x5},
                  {"no key in common; other parameters, edition 2", RECORDS, 0xA},
                  {"no key in common, every slot taken afterwards", SLOTS_IN_ALL, 0xA},
                  {"all keys with one home, every slot taken afterwards", SLOTS_IN_ALL, 0xA}};
enum { LIVING = 0x5, HALFWAY = LIVING | 0x2 };

static struct file empty;
static uint64_t keys[SLOTS_IN_ALL], put_keys[SLOTS_IN_ALL];
static uint32_t key_count, put_count;
static uint32_t row[SIDES][PAGES];

// The living file; one that holds what the merge leaves, a page before; and one that the puts go to.
static struct files living, growing, putting;

// How many records there are, what a merge takes, and how many checks of both files, growths and puts of each record
// that is worth.
static struct merged {
    uint32_t living, other, after;
    struct cost cost, to_checks, to_growth, to_puts;
} merged[CASES];

static uint32_t merge_ours(struct file *file) {
    const struct file *other = &second.of[OURS];
    return reefcushion_merge(SLIP, AREA, &other->slip, sizeof other->slip, other->area, other->bytes, row[OURS], PAGES);
}

static uint32_t merge_plain(struct file *file, const struct file *other, enum side side) {
    return baseline_merge(&file->slip, AREA, &other->slip, other->area, other->bytes, row[side], PAGES);
}

BATCH(ours_merge, merge_ours(file))
BATCH(plain_merge, merge_plain(file, &second.of[plain_side()], plain_side()))
BATCH(ours_grow, reefcushion_grow(SLIP, AREA, row[OURS], PAGES))
BATCH(plain_grow, baseline_grow(&file->slip, AREA, row[plain_side()], PAGES))
BATCH(ours_put, reefcushion_put(SLIP, AREA, key[i], ~key[i]))
BATCH(plain_put, baseline_put(&file->slip, AREA, key[i], ~key[i]))

// Any keys that have room together. Each takes a slot of the first page from its home on that has one left: so the
// pages get as many records as in the image, and nothing has to be put to know it.
static void choose_any(const struct way *way, uint32_t count) {
    uint8_t used[PAGES] = {0};
    for (uint64_t i = 0; key_count < count; i++) {
        uint32_t page = baseline_home(way, random_at(0, i));
        while (page < PAGES && used[page] == SLOTS)
            page++;
        if (page == PAGES)
            continue;
        used[page]++;
        keys[key_count++] = random_at(0, i);
    }
}

// Rising keys whose home is page 0. Of those that start there one in 256 stays, so all are found before 2^64.
static void choose_of_one_home(const struct way *way, uint32_t count) {
    uint64_t key = 0;
    for (uint64_t i = 0; key_count < count; i++) {
        key += way->first.size * (1 + (random_at(0, i) >> 28));
        if (baseline_home(way, key) == 0)
            keys[key_count++] = key;
    }
}

// Lays a record behind all others of its home, which is the only one there is. A put would read every page for that.
static void lay_last(struct file *file, uint64_t key) {
    uint8_t *page = file->area + page_start(file->slip.records / SLOTS);
    write_slot(slot_of(page, used_on(page)), MARK_RECORD, key, ~key);
    set_used(page, used_on(page) + 1);
    file->slip.records++;
}

// A file of the keys that have their bit set.
static struct files file_of(struct file file, unsigned parts, bool of_one_home) {
    for (uint32_t i = 0; i < key_count; i++) {
        if (!(parts >> i % 4 & 1))
            continue;
        if (of_one_home)
            lay_last(&file, keys[i]);
        else
            put_into(&file, keys[i], ~keys[i]);
    }
    if (baseline_check(&file.slip, file.area, file.bytes))
        stop("a file that is to be merged isn't whole");
    struct files files = files_of(RANDOM, file);
    restore(&files);
    return files;
}

static struct file copy_of(const struct file *from) {
    struct file file = new_file(PAGES);
    copy_file(&file, from);
    return file;
}

// What the merge leaves, shrunk by a page.
static struct files one_page_less(void) {
    struct file file = copy_of(&living.first);
    if (merge_plain(&file, &second.first, C) || baseline_shrink(&file.slip, file.area, file.bytes))
        stop("no file to grow beside a merge");
    return files_of(RANDOM, file);
}

// The keys to put: those of the other file, as they stand there. Where all have one home each put reads every page that
// has records, so only some are put, when half of the others have been. The pages read rise evenly from the first put
// to the last, so these are worth as much as any.
static void choose_puts(bool of_one_home) {
    const uint32_t each = key_count / FEW_PUTS / 4 * 4;
    put_count = 0;
    for (uint32_t i = 3; of_one_home && put_count < FEW_PUTS; i += each)
        put_keys[put_count++] = keys[i];
    for (uint32_t address = 0; !of_one_home && address < PAGES; address++) {
        uint8_t *page = second.first.area + page_start(address);
        for (uint32_t i = 0; i < used_on(page); i++)
            put_keys[put_count++] = load64(slot_of(page, i) + 4);
    }
}

// Merged, grown to their size and put one by one, the same records are the same bytes.
static void require_one_end(bool all_put) {
    require_same_files(&living);
    require_same_files(&growing);
    require_same_files(&putting);
    if (!same_file(&living.of[OURS], &growing.of[OURS]) || (all_put && !same_file(&living.of[OURS], &putting.of[OURS])))
        stop("a merge left another file than a growth or puts");
}

static void require_same_rows(void) {
    if (memcmp(row[OURS], row[C], sizeof row[C]) || memcmp(row[OURS], row[IN_STEP], sizeof row[C]))
        stop("two rows differ");
}

// Each round checks both files, merges them, grows the file beside them and puts the records, from the same bytes on.
static void time_merge(struct merged *told, unsigned rounds) {
    static struct timing merge = {.ours = ours_merge, .plain = plain_merge},
                         puts = {.ours = ours_put, .plain = plain_put}, grow = {.ours = ours_grow, .plain = plain_grow};
    struct timing *checks = &checks_of_both;
    const uint32_t common = told->living + told->other - told->after;
    const double times = (double)told->other / put_count;
    merge.rounds = grow.rounds = puts.rounds = checks->rounds = 0;
    for (rounds = held_to(rounds); rounds; rounds--) {
        restore(&living);
        restore(&growing);
        restore(&putting);
        time_round(checks, &living, NULL, 1, 0);
        time_round(&merge, &living, NULL, 1, 0);
        require_same_rows();
        time_round(&grow, &growing, NULL, 1, 0);
        require_same_rows();
        time_round(&puts, &putting, put_keys, put_count, REEFCUSHION_HELD * common);
        require_one_end(put_count == told->other);
    }
    require_same_files(&second);
    told->cost = cost_of(&merge, 1);
    for (int side = 0; side < SIDES; side++) {
        told->to_checks.of[side] = median(merge.of[side], checks->of[side], merge.rounds);
        told->to_growth.of[side] = median(merge.of[side], grow.of[side], merge.rounds);
        told->to_puts.of[side] = median(merge.of[side], puts.of[side], merge.rounds) / times;
    }
}

static void measure_case(int i, unsigned rounds) {
    const struct way way = baseline_way(&empty.slip);
    const bool of_one_home = i == ONE_HOME;
    key_count = 0;
    if (of_one_home)
        choose_of_one_home(&way, cases[i].keys);
    else
        choose_any(&way, cases[i].keys);
    living = file_of(copy_of(&empty), LIVING, of_one_home);
    second = file_of(i == REFILED ? empty_unlike_others() : copy_of(&empty), cases[i].other, of_one_home);
    putting = file_of(copy_of(&empty), of_one_home ? HALFWAY : LIVING, of_one_home);
    growing = one_page_less();
    choose_puts(of_one_home);
    merged[i].living = living.first.slip.records;
    merged[i].other = second.first.slip.records;
    merged[i].after = growing.first.slip.records;
    time_merge(&merged[i], rounds);
    drop_files(&living);
    drop_files(&second);
    drop_files(&putting);
    drop_files(&growing);
}

void measure_merges(unsigned scale) {
    empty = empty_like_others();
    for (int i = 0; i < CASES; i++)
        measure_case(i, MERGE_ROUNDS * scale);
    free(empty.area);
}

static void print_beside_c(void) {
    puts("| the two files | records: living | other | afterwards | ours | C | ours / C | C in step | ours / C in step "
         "|");
    puts("|---|--:|--:|--:|--:|--:|--:|--:|--:|");
    for (int i = 0; i < CASES; i++) {
        const struct merged *at = &merged[i];
        printf("| %s | %s | %s | %s | %s | %s | %.2f | %s | %.2f |\n", cases[i].name, grouped(at->living),
               grouped(at->other), grouped(at->after), grouped(at->cost.of[OURS] / 1000),
               grouped(at->cost.of[C] / 1000), at->cost.ratio[C], grouped(at->cost.of[IN_STEP] / 1000),
               at->cost.ratio[IN_STEP]);
    }
}

static void print_beside_calls(void) {
    puts("\n| the two files | in checks of both: ours | C | C in step | in growths: ours | C | C in step | "
         "in puts of each record: ours | C | C in step |");
    puts("|---|--:|--:|--:|--:|--:|--:|--:|--:|--:|");
    for (int i = 0; i < CASES; i++) {
        const double *checks = merged[i].to_checks.of, *growth = merged[i].to_growth.of, *single = merged[i].to_puts.of;
        printf("| %s | %.2f | %.2f | %.2f | %.2f | %.2f | %.2f | %.4f | %.4f | %.4f |\n", cases[i].name, checks[OURS],
               checks[C], checks[IN_STEP], growth[OURS], growth[C], growth[IN_STEP], single[OURS], single[C],
               single[IN_STEP]);
    }
}

void print_merges(unsigned scale) {
    puts("\n### A merge of two files, in microseconds and beside other calls\n");
    printf("Both files have %s pages, all grown to, and random keys. A merge checks both, looks up what they have in "
           "common, counts the records of each home to see that there is room, and lays all records anew in the living "
           "file's area; C leaves the pages as they are where no record comes. In the first four lines the load is 4/5 "
           "at most afterwards, in the last two no slot is left, and in the last all keys have page 0 as their home "
           "besides, so that searches are as long as they can be.\n\n",
           grouped(PAGES));
    printf("Each of the %s rounds begins from the same bytes. It times a check of both files and then the merge, and "
           "beside them a growth to that size of a file with the records that the merge leaves, and a put of each "
           "record of the other file into the living one, which come to the same bytes. Where all keys have one home a "
           "put reads every page with records: %d are timed when half of them have been put, and taken for all. The "
           "second table has how many of these a merge is worth; below 1 in the last columns it is the quicker.\n\n",
           grouped(held_to(MERGE_ROUNDS * scale)), FEW_PUTS);
    print_beside_c();
    print_beside_calls();
}

void print_merges_in_short(void) {
    const struct merged *strange = &merged[STRANGERS], *same = &merged[SAME], *worst = &merged[ONE_HOME];
    printf(
        "\nIn short: to merge %s records into a file of %s pages with as many others takes as long as %.2f checks of "
        "both and %.2f of the time of a put for each, %.2f times what C takes and %.2f times what C in step takes. "
        "Where both files hold the same it takes %.2f checks, and where all slots are taken afterwards and all keys "
        "have one home %.2f.\n",
        grouped(strange->other), grouped(PAGES), strange->to_checks.of[OURS], strange->to_puts.of[OURS],
        strange->cost.ratio[C], strange->cost.ratio[IN_STEP], same->to_checks.of[OURS], worst->to_checks.of[OURS]);
}
