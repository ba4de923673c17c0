// Our files at high loads, beside incremental hashing with separators. Its figures are facts of the paper by Chang and
// Lee (An Incremental Approach to Dynamic Hashing for Expansible Files), Table 4, and Tables 5 and 6 for insertions.
#include <stdio.h>
#include <string.h>

#include "../common/grouped.h"
#include "paper.h"

enum { LOADS = 3, THEIRS = 8 };
static const int loads[LOADS] = {80, 90, 95};

// Records that a home page holds, records between two splits, storage utilisation, and disk accesses: in a successful
// search, in an unsuccessful one and in an insertion with its splits. No insertion (0) stands where the tables have
// none, or where Table 6 has other searches than Table 4, as for backward with 24 records between two splits.
struct separators {
    const char *way;
    int slots, between;
    double used, hit, miss, insertion;
};

static const struct separators theirs[THEIRS] = {
    {"forward", 10, 8, 0.921, 1.914, 1.958, 0},
    {"forward", 10, 12, 0.948, 1.914, 1.958, 0},
    {"backward", 10, 8, 0.917, 1.890, 1.847, 0},
    {"backward", 10, 12, 0.943, 1.890, 1.847, 0},
    {"forward", 20, 16, 0.917, 1.844, 1.989, 17},
    {"forward", 20, 24, 0.934, 1.857, 1.975, 14},
    {"backward", 20, 16, 0.925, 1.780, 1.847, 12},
    {"backward", 20, 24, 0.952, 1.800, 2.0, 0},
};

// What was read in the files of one loading, and how full the pages that they take are, as a sum over the files.
struct looked {
    struct reads held, absent, puts;
    double used;
};

struct row {
    struct kind kind;
    struct figure used, held, absent, put;
    int most_held, most_absent, most_put;
};

// Pages up to the last that is grown to or holds a record.
static int pages_taken(const struct file *file) {
    int pages = file->slip.cap;
    while (pages > file->slip.pages && records_on(file, pages - 1) == 0)
        pages--;
    return pages;
}

// Keys that were never put come and go again, which leaves the file as it was.
static void put_absent(struct file *file, struct reads *reads) {
    struct reefcushion_slip *slip = &file->slip;
    for (uint64_t i = 0; i < SEARCHES; i++) {
        uint64_t key = absent_key(file, i);
        if (reefcushion_put(slip, sizeof *slip, file->area, lent_bytes(file), key, i) != 0)
            stop("put is refused", slip->refusal);
        add_read(reads, (int)slip->read);
        if (reefcushion_remove(slip, sizeof *slip, file->area, lent_bytes(file), key) != 0)
            stop("remove is refused", slip->refusal);
    }
}

static struct looked look_at(struct kind kind, struct effort effort, int loading) {
    static struct file file;
    struct looked looked = {{0, 0, 0}, {0, 0, 0}, {0, 0, 0}, 0};
    struct reads by_his_rule = {0, 0, 0};
    for (int point = 0; point < effort.points; point++) {
        lay_file(&file, kind, (uint64_t)loading, size_at(effort, loading, point));
        must_be_counted(&file);
        search_all_held(&file, &looked.held);
        search_absent(&file, &looked.absent, &by_his_rule);
        put_absent(&file, &looked.puts);
        looked.used += (double)file.slip.records / (SLOTS * pages_taken(&file));
    }
    if (looked.puts.pages != by_his_rule.pages)
        stop("puts didn't go on to a page that isn't full", loading);
    return looked;
}

// The sum over the loadings, and the sum of the squares, which a mean and its standard error come from.
struct sums {
    double sum, squares;
};

static void add(struct sums *sums, double number) {
    sums->sum += number;
    sums->squares += number * number;
}

static int larger(int a, int b) {
    return a > b ? a : b;
}

static struct row measured(struct kind kind, struct effort effort) {
    struct sums used = {0, 0}, held = {0, 0}, absent = {0, 0}, put = {0, 0};
    struct row row = {.kind = kind};
    const int count = effort.loadings;
    for (int loading = 0; loading < count; loading++) {
        struct looked looked = look_at(kind, effort, loading);
        add(&used, looked.used / effort.points);
        add(&held, mean_read(looked.held));
        add(&absent, mean_read(looked.absent));
        add(&put, mean_read(looked.puts));
        row.most_held = larger(row.most_held, looked.held.most);
        row.most_absent = larger(row.most_absent, looked.absent.most);
        row.most_put = larger(row.most_put, looked.puts.most);
    }
    row.used = figure(used.sum, used.squares, count);
    row.held = figure(held.sum, held.squares, count);
    row.absent = figure(absent.sum, absent.squares, count);
    row.put = figure(put.sum, put.squares, count);
    return row;
}

static void print_head(struct effort effort) {
    puts("\n### Beside separators\n");
    puts("Incremental hashing, by Chang and Lee, is made for full pages: all home pages in turn are split before it "
         "has one page more. What a home page can't hold goes to overflow pages of its own, which are half as large. "
         "A table of separators, in memory or in the home page, tells on which of them a record would be. So a search "
         "reads the home page and at most one page more. Their figures are disk accesses in simulations with 1,000 "
         "random keys. Forward and backward are their two ways to split, and the number behind them says how many "
         "records come from one split to the next. A dash stands for an insertion where their tables have no figure, "
         "or rows that disagree.\n");
    printf("Ours are the files of the tables above (n0 2, s 5, random keys), each size of each loading, %d files for "
           "each load. Growth is due above load 0.8; for the higher ones the harness goes on by the same rule. Every "
           "record is sought once, and %s keys that were never put are sought, put and removed again. Utilisation "
           "counts all pages that are taken: theirs with overflow pages, ours with the pages behind the last one "
           "grown to that hold what overflows.\n\n",
           effort.loadings * effort.points, grouped(SEARCHES));
}

static void print_table(const struct row rows[LOADS]) {
    puts("| files | records a page | utilisation | successful | at most | unsuccessful | at most | put, without growth "
         "| at most | insertion, with splits |");
    puts("|---|--:|--:|--:|--:|--:|--:|--:|--:|--:|");
    for (int i = 0; i < LOADS; i++) {
        const struct row *r = &rows[i];
        printf("| ours, load %g | %d | %.3f | %.3f ± %.3f | %d | %.3f ± %.3f | %d | %.2f ± %.2f | %d | - |\n",
               load_of(r->kind), SLOTS, r->used.mean, r->held.mean, r->held.error, r->most_held, r->absent.mean,
               r->absent.error, r->most_absent, r->put.mean, r->put.error, r->most_put);
    }
    for (int i = 0; i < THEIRS; i++) {
        const struct separators *t = &theirs[i];
        char insertion[16] = "-";
        if (t->insertion > 0)
            snprintf(insertion, sizeof insertion, "%g", t->insertion);
        printf("| %s, %d | %d, overflow %d | %.3f | %.3f | 2 | %.3f | 2 | - | - | %s |\n", t->way, t->between, t->slots,
               t->slots / 2, t->used, t->hit, t->miss, insertion);
    }
}

// The lowest and the highest of their figures of one sort.
struct range {
    double low, high;
};

static double used_of(const struct separators *t) {
    return t->used;
}

static double hit_of(const struct separators *t) {
    return t->hit;
}

static double miss_of(const struct separators *t) {
    return t->miss;
}

static struct range range(double (*of)(const struct separators *)) {
    struct range range = {of(&theirs[0]), of(&theirs[0])};
    for (int i = 1; i < THEIRS; i++) {
        double here = of(&theirs[i]);
        range.low = here < range.low ? here : range.low;
        range.high = here > range.high ? here : range.high;
    }
    return range;
}

static const char *beside(double ours, struct range range) {
    if (ours < range.low)
        return "fewer than any of theirs";
    return ours > range.high ? "more than any of theirs" : "about as many as theirs";
}

static void print_load_in_words(const struct row *row, struct range hit, struct range miss) {
    const char *held = beside(row->held.mean, hit), *absent = beside(row->absent.mean, miss);
    printf(" At load %g ours read %.2f", load_of(row->kind), row->held.mean);
    if (strcmp(held, absent) == 0)
        printf(" and %.2f, %s.", row->absent.mean, held);
    else
        printf(", %s, and %.2f, %s.", held, row->absent.mean, absent);
}

static void print_searches_in_words(const struct row rows[LOADS]) {
    const struct range used = range(used_of), hit = range(hit_of), miss = range(miss_of);
    const struct row *most = &rows[LOADS - 1];
    printf("\nTheirs, with %.0f to %.0f %% of their room taken, read %.2f to %.2f pages on average in a successful "
           "search and %.2f to %.2f in an unsuccessful one.",
           100 * used.low, 100 * used.high, hit.low, hit.high, miss.low, miss.high);
    for (int i = 0; i < LOADS; i++)
        print_load_in_words(&rows[i], hit, miss);
    printf(" And none of theirs reads more than 2, where ours at load %g read up to %d. Home pages are few in files "
           "as full as theirs, by their formula some 14 of 10 records each where 1,000 records are held and one split "
           "is made for every 10. So %.0f to %.0f of 100 records stand on an overflow page, which takes a second "
           "access. Ours stand at home or little above as long as runs of full pages are short, and far from home "
           "where they are long. An absent key costs ours about as much as a held one, since records stand in order; "
           "theirs reads an overflow page for %.0f to %.0f of 100.\n\n",
           load_of(most->kind), larger(most->most_held, most->most_absent), 100 * (hit.low - 1), 100 * (hit.high - 1),
           100 * (miss.low - 1), 100 * (miss.high - 1));
}

// A growth for each page's share of records, by the load.
static void print_puts_in_words(const struct row rows[LOADS]) {
    printf("A put of ours goes on to a page that isn't full: %.1f, %.1f and %.1f pages on average at the three loads. "
           "That is without growth, which looks at every page lent, %s here: as it comes once for every %.1f records "
           "at load %g, it adds %.0f pages to each put. A split of theirs reads one home page with its overflow pages "
           "and puts their records anew, so an insertion is far cheaper there, growth included. What it has to keep "
           "are the separators, which change when an insertion or a split moves records; their analysis leaves out "
           "what that costs. Ours keeps nothing beside the pages but the state of 16 bytes, and the pages are one "
           "image at every site.\n",
           rows[0].put.mean, rows[1].put.mean, rows[2].put.mean, grouped(CAP), SLOTS * load_of(rows[0].kind),
           load_of(rows[0].kind), CAP / (SLOTS * load_of(rows[0].kind)));
}

static void print_in_short(const struct row rows[LOADS]) {
    const struct range used = range(used_of), hit = range(hit_of), miss = range(miss_of);
    const struct row *ninety = &rows[1], *most = &rows[2];
    printf("\nIn short: at load %g a search for a held key reads %.2f pages and one for an absent key %.2f, at load %g "
           "%.2f and %.2f and up to %d; incremental hashing with separators (Chang and Lee) reads %.2f to %.2f and "
           "%.2f to %.2f, and never more than 2, with %.0f to %.0f %% of its room taken.\n",
           load_of(ninety->kind), ninety->held.mean, ninety->absent.mean, load_of(most->kind), most->held.mean,
           most->absent.mean, larger(most->most_held, most->most_absent), hit.low, hit.high, miss.low, miss.high,
           100 * used.low, 100 * used.high);
}

void print_separators(struct effort effort) {
    struct row rows[LOADS];
    for (int i = 0; i < LOADS; i++)
        rows[i] = measured((struct kind){2, 5, loads[i]}, effort);
    print_head(effort);
    print_table(rows);
    print_searches_in_words(rows);
    print_puts_in_words(rows);
    print_in_short(rows);
}
