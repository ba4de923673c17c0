// Averages over a full expansion and over loadings.
#include <stdlib.h>

#include "paper.h"

// The sizes looked at are evenly spaced over the full expansion. Each loading takes its own, between those of the
// others, so that all together are the more.
int size_at(struct effort effort, int loading, int point) {
    int all = effort.loadings * effort.points;
    int place = point * effort.loadings + loading;
    return FIRST + FIRST * (2 * place + 1) / (2 * all);
}

static struct cost plus(struct cost a, struct cost b) {
    return (struct cost){a.hit + b.hit, a.miss + b.miss, a.his + b.his};
}

static struct cost over(struct cost a, double by) {
    return (struct cost){a.hit / by, a.miss / by, a.his / by};
}

// The files that one loading becomes over the expansion. Where it is grown too, from the fresh file on, both have to be
// the same at each size.
static struct cost product_loading(struct kind kind, struct effort effort, int loading, bool grown) {
    static struct file laid, growing;
    struct cost sum = {0, 0, 0};
    if (grown)
        format_file(&growing, kind, (uint64_t)loading);
    for (int point = 0; point < effort.points; point++) {
        int pages = size_at(effort, loading, point);
        lay_file(&laid, kind, (uint64_t)loading, pages);
        must_be_counted(&laid);
        if (grown) {
            grow_file(&growing, pages);
            must_be_same(&growing, &laid);
        }
        sum = plus(sum, searched(&laid));
    }
    return over(sum, effort.points);
}

static struct cost counted_loading(struct kind kind, struct effort effort, int loading, int slots) {
    struct cost sum = {0, 0, 0};
    for (int point = 0; point < effort.points; point++)
        sum = plus(sum, counted_at(kind, (uint64_t)loading, size_at(effort, loading, point), slots));
    return over(sum, effort.points);
}

struct figure figure(double sum, double squares, int count) {
    double mean = sum / count;
    double variance = (squares / count - mean * mean) / (count - 1);
    return (struct figure){mean, variance > 0 ? __builtin_sqrt(variance) : 0};
}

static struct averages averages(struct cost sum, struct cost squares, int count) {
    return (struct averages){figure(sum.hit, squares.hit, count), figure(sum.miss, squares.miss, count),
                             figure(sum.his, squares.his, count)};
}

static struct cost squared(struct cost a) {
    return (struct cost){a.hit * a.hit, a.miss * a.miss, a.his * a.his};
}

static struct averages product_measured(struct kind kind, struct effort effort) {
    struct cost sum = {0, 0, 0}, squares = {0, 0, 0};
    bool named = same_kind(kind, (struct kind){2, 5, 80});
    for (int loading = 0; loading < effort.loadings; loading++) {
        bool grown = effort.grown == GROWN_ALL || (effort.grown == GROWN_ONE && named && loading == 0);
        struct cost cost = product_loading(kind, effort, loading, grown);
        sum = plus(sum, cost);
        squares = plus(squares, squared(cost));
    }
    return averages(sum, squares, effort.loadings);
}

// Five sweeps at load 0.8 stand in two tables and are measured once. There are twenty cells in all.
struct averages product_averages(struct kind kind, struct effort effort) {
    static struct {
        struct kind kind;
        struct averages averages;
    } known[20];
    static int count;
    for (int i = 0; i < count; i++) {
        if (same_kind(known[i].kind, kind))
            return known[i].averages;
    }
    if (count == 20)
        stop("more cells than are foreseen", count);
    known[count].kind = kind;
    known[count].averages = product_measured(kind, effort);
    return known[count++].averages;
}

struct averages counted_averages(struct kind kind, struct effort effort, int slots) {
    struct cost sum = {0, 0, 0}, squares = {0, 0, 0};
    for (int loading = 0; loading < effort.loadings; loading++) {
        struct cost cost = counted_loading(kind, effort, loading, slots);
        sum = plus(sum, cost);
        squares = plus(squares, squared(cost));
    }
    return averages(sum, squares, effort.loadings);
}

// The mean over the loadings at evenly spaced sizes, both ends of the expansion among them.
void product_curve(struct kind kind, struct effort effort, struct cost curve[CURVE + 1]) {
    static struct file laid;
    for (int i = 0; i <= CURVE; i++) {
        struct cost sum = {0, 0, 0};
        for (int loading = 0; loading < effort.loadings; loading++) {
            lay_file(&laid, kind, (uint64_t)loading, FIRST + FIRST * i / CURVE);
            sum = plus(sum, searched(&laid));
        }
        curve[i] = over(sum, effort.loadings);
    }
}
