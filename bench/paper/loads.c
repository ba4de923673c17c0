// Loads and pages a group at five sweeps, beside his Table II.
#include <stdio.h>

#include "paper.h"

enum { ROWS = 6 };

static const int page_sizes[3] = {10, 20, 40};

struct row {
    struct kind kind;
    struct averages ours, counted[3];
    const struct larson *his[3];
};

static void measure(struct row *row, struct kind kind, struct effort effort) {
    row->kind = kind;
    row->ours = product_averages(kind, effort);
    for (int i = 0; i < 3; i++) {
        row->counted[i] = counted_averages(kind, effort, page_sizes[i]);
        row->his[i] = larson(2, kind, page_sizes[i]);
        if (!row->his[i])
            stop("his Table II lacks a figure", page_sizes[i]);
    }
}

static void print_successful(const struct row rows[ROWS]) {
    puts("\n### Loads: successful searches, at s 5 (his Table II)\n");
    puts("| n0 | load | his, 10 | ours, 12 | his, 20 | his, 40 |");
    puts("|--:|--:|--:|--:|--:|--:|");
    for (int i = 0; i < ROWS; i++) {
        const struct row *r = &rows[i];
        printf("| %d | %g | %.2f | %.3f ± %.3f | %.2f | %.2f |\n", r->kind.n0, load_of(r->kind), r->his[0]->hit,
               r->ours.hit.mean, r->ours.hit.error, r->his[1]->hit, r->his[2]->hit);
    }
}

static void print_unsuccessful(const struct row rows[ROWS]) {
    puts("\n### Loads: unsuccessful searches, at s 5 (his Table II)\n");
    puts("| n0 | load | his, 10 | by his rule, 12 | his, 20 | his, 40 | ours, 12 |");
    puts("|--:|--:|--:|--:|--:|--:|--:|");
    for (int i = 0; i < ROWS; i++) {
        const struct row *r = &rows[i];
        printf("| %d | %g | %.2f | %.3f ± %.3f | %.2f | %.2f | %.3f ± %.3f |\n", r->kind.n0, load_of(r->kind),
               r->his[0]->miss, r->ours.his.mean, r->ours.his.error, r->his[1]->miss, r->his[2]->miss,
               r->ours.miss.mean, r->ours.miss.error);
    }
}

// How many figures of ours lie between his at 10 and his at 20, below both, and above both.
struct places {
    int between, below, above;
};

// His figure at 10 is never below the one at 20.
static void place(struct places *places, double ours, double ten, double twenty) {
    places->below += ours < twenty;
    places->above += ours > ten;
    places->between += ours >= twenty && ours <= ten;
}

static void print_places(const char *what, const struct places *p) {
    printf("%s between his at 10 and his at 20 in %d of %d rows, below both in %d, above both in %d.\n", what,
           p->between, ROWS, p->below, p->above);
}

static const char *place_name(double ours, double ten, double twenty) {
    if (ours < twenty)
        return "below both";
    return ours > ten ? "above both" : "between them";
}

static void print_successful_in_words(const struct row rows[ROWS]) {
    struct places hit = {0, 0, 0};
    for (int i = 0; i < ROWS; i++)
        place(&hit, rows[i].ours.hit.mean, rows[i].his[0]->hit, rows[i].his[1]->hit);
    puts("");
    print_places("Ours is", &hit);
    const struct row *r = &rows[1];
    printf("At n0 2, load 0.8 it is %.3f ± %.3f, his %.2f at 10 and %.2f at 20: %s.\n", r->ours.hit.mean,
           r->ours.hit.error, r->his[0]->hit, r->his[1]->hit,
           place_name(r->ours.hit.mean, r->his[0]->hit, r->his[1]->hit));
    puts("The order of the records has no part in this: the sum of their distances from home follows from the number "
         "of records on each page, which is the same in his placement.");
}

static void print_unsuccessful_in_words(const struct row rows[ROWS]) {
    struct places rule = {0, 0, 0}, miss = {0, 0, 0};
    int below_forty = 0;
    for (int i = 0; i < ROWS; i++) {
        const struct row *r = &rows[i];
        place(&rule, r->ours.his.mean, r->his[0]->miss, r->his[1]->miss);
        place(&miss, r->ours.miss.mean, r->his[0]->miss, r->his[1]->miss);
        below_forty += r->ours.miss.mean < r->his[2]->miss;
    }
    puts("");
    print_places("By his rule the cost in our files is", &rule);
    print_places("Ours is", &miss);
    const struct row *r = &rows[1];
    printf("Ours is below his at 40 too in %d of them. At n0 2, load 0.8 it is %.3f ± %.3f (by his rule %.3f ± %.3f), "
           "his %.2f at 10 and %.2f at 20: %s.\n",
           below_forty, r->ours.miss.mean, r->ours.miss.error, r->ours.his.mean, r->ours.his.error, r->his[0]->miss,
           r->his[1]->miss, place_name(r->ours.miss.mean, r->his[0]->miss, r->his[1]->miss));
    puts("An unsuccessful search is shorter here because records stand in rising (home, key) order, so that it ends at "
         "the first record that stands after the sought one, where his has to go on to a page that isn't full.");
}

static void print_counted(const struct row rows[ROWS], bool successful) {
    printf("\n%s searches:\n\n", successful ? "Successful" : "Unsuccessful");
    puts("| n0 | load | counted, 10 | his, 10 | counted, 20 | his, 20 | counted, 40 | his, 40 |");
    puts("|--:|--:|--:|--:|--:|--:|--:|--:|");
    for (int i = 0; i < ROWS; i++) {
        const struct row *r = &rows[i];
        printf("| %d | %g |", r->kind.n0, load_of(r->kind));
        for (int j = 0; j < 3; j++) {
            struct figure f = successful ? r->counted[j].hit : r->counted[j].miss;
            printf(" %.3f ± %.3f | %.2f |", f.mean, f.error, successful ? r->his[j]->hit : r->his[j]->miss);
        }
        puts("");
    }
}

// Whether his figure, which is rounded to a hundredth, is within two standard errors of the counted one.
static bool near(struct figure counted, double his) {
    double gap = counted.mean > his ? counted.mean - his : his - counted.mean;
    return gap <= 2 * counted.error + 0.005;
}

static void print_counted_in_words(const struct row rows[ROWS]) {
    int hits = 0, misses = 0, higher = 0;
    for (int i = 0; i < ROWS; i++) {
        for (int j = 0; j < 3; j++) {
            hits += near(rows[i].counted[j].hit, rows[i].his[j]->hit);
            misses += near(rows[i].counted[j].miss, rows[i].his[j]->miss);
            higher += rows[i].counted[j].miss.mean > rows[i].his[j]->miss;
        }
    }
    printf("\nHis figure lies within two standard errors of the counted one, and half of its last digit, in %d of %d "
           "cells for successful searches and in %d of %d for unsuccessful ones. Of the latter, the counted figure is "
           "the higher in %d.\n",
           hits, 3 * ROWS, misses, 3 * ROWS, higher);
}

void print_loads(struct effort effort) {
    static struct row rows[ROWS];
    for (int i = 0; i < ROWS; i++)
        measure(&rows[i], (struct kind){2 + i / 3, 5, 70 + 10 * (i % 3)}, effort);
    print_successful(rows);
    print_successful_in_words(rows);
    print_unsuccessful(rows);
    print_unsuccessful_in_words(rows);
    puts("\n### The harness against the paper: his page sizes counted again");
    print_counted(rows, true);
    print_counted(rows, false);
    print_counted_in_words(rows);
}
