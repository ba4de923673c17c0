// The sweeps, beside his Table I.
#include <stdio.h>

#include "paper.h"

struct row {
    struct averages ours, counted;
    const struct larson *his;
};

static void print_row(int sweeps, const struct row *row) {
    const struct averages *o = &row->ours, *c = &row->counted;
    char hit[16] = "-", miss[16] = "-";
    if (row->his) {
        snprintf(hit, sizeof hit, "%.2f", row->his->hit);
        snprintf(miss, sizeof miss, "%.2f", row->his->miss);
    }
    printf("| %d | %.3f ± %.3f | %.3f ± %.3f | %s | %.3f ± %.3f | %.3f ± %.3f | %.3f ± %.3f | %s |\n", sweeps,
           o->hit.mean, o->hit.error, c->hit.mean, c->hit.error, hit, o->miss.mean, o->miss.error, o->his.mean,
           o->his.error, c->miss.mean, c->miss.error, miss);
}

static struct figure our_misses(const struct row *row) {
    return row->ours.miss;
}

static struct figure misses_by_his_rule(const struct row *row) {
    return row->ours.his;
}

static struct figure counted_misses(const struct row *row) {
    return row->counted.miss;
}

// The number of sweeps at which a column is lowest.
static int lowest(const struct row rows[MOST_SWEEPS + 1], struct figure (*of)(const struct row *)) {
    int best = 1;
    for (int s = 2; s <= MOST_SWEEPS; s++) {
        if (of(&rows[s]).mean < of(&rows[best]).mean)
            best = s;
    }
    return best;
}

static bool told_apart(struct figure low, struct figure high) {
    double gap = high.mean - low.mean;
    return gap * gap > 4 * (low.error * low.error + high.error * high.error);
}

// Says where a column is lowest, and where it can't be told from that.
static void print_lowest(const char *whose, const struct row rows[MOST_SWEEPS + 1],
                         struct figure (*of)(const struct row *)) {
    int best = lowest(rows, of), others = 0;
    printf(" %s: %d", whose, best);
    for (int s = 1; s <= MOST_SWEEPS; s++) {
        if (s != best && !told_apart(of(&rows[best]), of(&rows[s])))
            printf(others++ == 0 ? " (within two standard errors also %d" : ", %d", s);
    }
    printf(others == 0 ? "." : ").");
}

static void print_his_lowest(const struct row rows[MOST_SWEEPS + 1]) {
    double best = rows[1].his->miss;
    for (int s = 2; s <= MOST_SWEEPS; s++) {
        if (rows[s].his && rows[s].his->miss < best)
            best = rows[s].his->miss;
    }
    int others = 0;
    for (int s = 1; s <= MOST_SWEEPS; s++) {
        if (rows[s].his && rows[s].his->miss == best)
            printf(others++ == 0 ? " His table: %d" : ", %d", s);
    }
    puts(".");
}

struct tally {
    int all, hit_above, miss_below, rule_above;
    double hit_apart, miss_apart, one_apart; // the widest gap between counted and his, in per cent
};

static double apart(double mine, double his) {
    double gap = 100 * (mine - his) / his;
    return gap < 0 ? -gap : gap;
}

static double larger(double a, double b) {
    return a > b ? a : b;
}

static struct tally tally(const struct row rows[MOST_SWEEPS + 1]) {
    struct tally t = {0, 0, 0, 0, 0, 0, 0};
    for (int s = 1; s <= MOST_SWEEPS; s++) {
        const struct row *row = &rows[s];
        if (!row->his)
            continue;
        t.all++;
        t.hit_above += row->ours.hit.mean > row->his->hit;
        t.miss_below += row->ours.miss.mean < row->his->miss;
        t.rule_above += row->ours.his.mean > row->his->miss;
        double gap = apart(row->counted.miss.mean, row->his->miss);
        if (s == 1)
            t.one_apart = gap;
        else
            t.miss_apart = larger(t.miss_apart, gap);
        t.hit_apart = larger(t.hit_apart, apart(row->counted.hit.mean, row->his->hit));
    }
    return t;
}

static void print_in_words(const struct row rows[MOST_SWEEPS + 1]) {
    struct tally t = tally(rows);
    printf("\nHis table has %d of these rows, for pages of 20. Ours, with pages of %d, reads more than his in a "
           "successful search in %d of them, and less than his in an unsuccessful one in %d; by his rule our files "
           "would cost more than his in %d.\n",
           t.all, SLOTS, t.hit_above, t.miss_below, t.rule_above);
    printf("\nSweeps with the shortest unsuccessful searches:");
    print_lowest("Ours", rows, our_misses);
    print_lowest("By his rule", rows, misses_by_his_rule);
    print_lowest("Counted at 20", rows, counted_misses);
    print_his_lowest(rows);
    printf("\nCounted at 20, his successful searches come out at most %.1f %% off his figures, and the unsuccessful "
           "ones at most %.1f %% off for two sweeps and more; for one sweep %.1f %%.\n",
           t.hit_apart, t.miss_apart, t.one_apart);
    const struct larson *there = larson(2, (struct kind){2, 5, 80}, 20);
    if (there && rows[5].his)
        printf("His Tables I and II meet in one cell, at five sweeps: they say %.2f and %.2f for a successful search, "
               "%.2f and %.2f for an unsuccessful one.\n",
               rows[5].his->hit, there->hit, rows[5].his->miss, there->miss);
}

static void print_two(struct effort effort) {
    struct row rows[MOST_SWEEPS + 1];
    puts("### Sweeps, at load 0.8 and n0 2 (his Table I)\n");
    puts("| s | successful: ours, 12 | counted, 20 | his, 20 | unsuccessful: ours, 12 | by his rule, 12 | counted, 20 "
         "| his, 20 |");
    puts("|--:|--:|--:|--:|--:|--:|--:|--:|");
    for (int s = 1; s <= MOST_SWEEPS; s++) {
        struct kind kind = {2, s, 80};
        rows[s] = (struct row){product_averages(kind, effort), counted_averages(kind, effort, 20), larson(1, kind, 20)};
        print_row(s, &rows[s]);
    }
    print_in_words(rows);
}

// His tables have three pages a group at five sweeps only, in Table II.
static void print_three(struct effort effort) {
    struct row rows[MOST_SWEEPS + 1];
    puts("\n### Sweeps, at load 0.8 and n0 3 (not in his Table I)\n");
    puts("| s | successful: ours, 12 | unsuccessful: ours, 12 | by his rule, 12 |");
    puts("|--:|--:|--:|--:|");
    for (int s = 1; s <= MOST_SWEEPS; s++) {
        struct averages o = product_averages((struct kind){3, s, 80}, effort);
        rows[s] = (struct row){o, o, NULL};
        printf("| %d | %.3f ± %.3f | %.3f ± %.3f | %.3f ± %.3f |\n", s, o.hit.mean, o.hit.error, o.miss.mean,
               o.miss.error, o.his.mean, o.his.error);
    }
    int best = lowest(rows, our_misses), by_rule = lowest(rows, misses_by_his_rule);
    printf("\nSweeps with the shortest unsuccessful searches:");
    print_lowest("Ours", rows, our_misses);
    print_lowest("By his rule", rows, misses_by_his_rule);
    printf("\n\nIn an unsuccessful search one sweep reads %.2f times as many pages as the best number of sweeps with "
           "ours, and %.2f times by his rule.\n",
           rows[1].ours.miss.mean / rows[best].ours.miss.mean, rows[1].ours.his.mean / rows[by_rule].ours.his.mean);
}

void print_sweeps(struct effort effort) {
    print_two(effort);
    print_three(effort);
}
