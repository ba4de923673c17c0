// Prints in Markdown how the proved calls compare with the plain ones: speed [SCALE]. A scale of 1 takes some seconds;
// there are so many times more rounds of each call.
#include <stdio.h>
#include <stdlib.h>

#include "../common/grouped.h"
#include "speed_figures.h"

enum { ROUNDS = 60, FEWEST_ROUNDS = 12, LENT = 4096 };
const char *const style_names[STYLES] = {"random", "consecutive", "consecutive, edition 2"};
const char *const call_names[CALLS] = {"find (held)", "find (absent)", "put", "remove", "grow", "shrink", "check"};
static const struct size sizes[SIZES] = {{16, false, true},  {64, true, true},    {256, false, true},
                                         {512, true, false}, {1024, false, true}, {4096, true, true}};
struct figures figures[FILES];

// Calls that look a whole file over get fewer rounds where it is large.
static unsigned whole_rounds(uint32_t pages, unsigned scale) {
    unsigned rounds = 2 * LENT / pages;
    return (rounds < FEWEST_ROUNDS ? FEWEST_ROUNDS : rounds > ROUNDS ? ROUNDS : rounds) * scale;
}

static void measure(struct figures *at, unsigned scale) {
    const uint32_t pages = at->size.pages, cap = pages + pages / 4 < LENT ? pages + pages / 4 : LENT;
    struct files files = make_files(at->style, pages, cap);
    at->cost[FIND_HELD] = time_find(&files, true, ROUNDS * scale);
    at->cost[FIND_ABSENT] = time_find(&files, false, ROUNDS * scale);
    time_put_and_remove(&files, ROUNDS * scale, &at->cost[PUT], &at->cost[REMOVE]);
    at->cost[CHECK] = time_check(&files, whole_rounds(pages, scale));
    if (at->size.compared) {
        at->cost[SHRINK] = time_shrink(&files, whole_rounds(pages, scale), &at->shrink_to_check);
        at->run = time_run(&files, FEWEST_ROUNDS * scale);
    }
    at->read_by_find = pages_read(&files, false);
    at->read_by_put = pages_read(&files, true);
    at->cap = cap;
    at->records = files.first.slip.records;
    at->longest_run = longest_full_run(files.first.area, cap);
    struct files growing = pages < cap ? files : one_page_before(&files);
    at->cost[GROW] = time_grow(&growing, whole_rounds(pages, scale), &at->grow_to_check);
    if (pages == cap)
        drop_files(&growing);
    drop_files(&files);
}

static void print_head(unsigned scale) {
    puts("## The proved calls beside C\n");
    puts("\"Ours\" is the proved library, which works the homes of a page's records out together. \"C\" is the same "
         "register in plain C (`bench/baseline`), with the same judging of every page: homes are worked out key by "
         "key, for the records that a page has. \"C in step\" is what an expert would make of it: the homes of all "
         "twelve slots of a page at once, in loops that tell the compiler to use vectors. All are compiled for any "
         "x86-64 processor.\n");
    puts("Each file holds four fifths of the records that its P pages have room for (n0 2, N 8, s 5). Random keys are "
         "any numbers of 64 bits. Consecutive keys run upward from 0: in edition 1 numbers up to 42,590 all move to "
         "new pages at the first step of growth, so pages fill unevenly and walks are longer; edition 2 takes each "
         "step's draw ten later, which spreads them. Files are of edition 1 where edition 2 isn't named.\n");
    printf("A round times one batch of calls by each of the three, on equal files, with the same keys and in changing "
           "order, and they have to do the same. A figure is the median of the rounds (%s, for pay runs and for check, "
           "grow and shrink of large files %s), and a ratio is the median of the rounds' ratios.\n\n",
           grouped(ROUNDS * scale), grouped(FEWEST_ROUNDS * scale));
}

static void print_calls(void) {
    puts("### A call, in nanoseconds\n");
    puts("Where P is the lent size, grow goes from P - 1 to P, otherwise from P to P + 1; shrink goes from P to P - "
         "1.\n");
    puts("| keys | P | lent | records | call | ours | C | ours / C | C in step | ours / C in step |");
    puts("|---|--:|--:|--:|---|--:|--:|--:|--:|--:|");
    for (const struct figures *at = figures; at < figures + FILES; at++)
        for (int call = 0; at->size.compared && call < CALLS; call++) {
            const struct cost *cost = &at->cost[call];
            printf("| %s | %s | %s | %s | %s | %s | %s | %.2f | %s | %.2f |\n", style_names[at->style],
                   grouped(at->size.pages), grouped(at->cap), grouped(at->records), call_names[call],
                   grouped(cost->of[OURS]), grouped(cost->of[C]), cost->ratio[C], grouped(cost->of[IN_STEP]),
                   cost->ratio[IN_STEP]);
        }
}

static void print_resize(void) {
    puts("\n### A growth and a shrink, in checks of the same file\n");
    puts("| keys | P | grow: ours | C | C in step | shrink: ours | C | C in step |");
    puts("|---|--:|--:|--:|--:|--:|--:|--:|");
    for (const struct figures *at = figures; at < figures + FILES; at++) {
        const double *grow = at->grow_to_check.of, *shrink = at->shrink_to_check.of;
        if (at->size.compared)
            printf("| %s | %s | %.2f | %.2f | %.2f | %.2f | %.2f | %.2f |\n", style_names[at->style],
                   grouped(at->size.pages), grow[OURS], grow[C], grow[IN_STEP], shrink[OURS], shrink[C],
                   shrink[IN_STEP]);
    }
}

static void print_runs(void) {
    printf("\n### A pay run of %d puts, in nanoseconds a put\n\n", RUN_PUTS);
    printf("Any %d records of a file are taken out of it, and put again: by one call for all, and by a call for each, "
           "from the same bytes on. Rounds that begin with the one and with the other are taken in pairs. Behind the "
           "times of both ways stands their ratio: below 1 the one call is the quicker, though it writes replies as "
           "well.\n\n",
           RUN_PUTS);
    puts("| keys | P | ours: one call | single calls | ratio | C: one call | single calls | ratio | "
         "C in step: one call | single calls | ratio | one call: ours / C | ours / C in step |");
    puts("|---|--:|--:|--:|--:|--:|--:|--:|--:|--:|--:|--:|--:|");
    for (const struct figures *at = figures; at < figures + FILES; at++) {
        const struct run_cost *run = &at->run;
        if (!at->size.compared)
            continue;
        printf("| %s | %s |", style_names[at->style], grouped(at->size.pages));
        for (int side = 0; side < SIDES; side++)
            printf(" %s | %s | %.3f |", grouped(run->one_call.of[side]), grouped(run->single_calls.of[side]),
                   run->ratio[side]);
        printf(" %.2f | %.2f |\n", run->one_call.ratio[C], run->one_call.ratio[IN_STEP]);
    }
}

static void print_reasons(void) {
    puts("\nWhere ours is the slower, and why. To work homes out together pays the more the more steps a home takes: "
         "at P 64 there are four, and what a page costs beside them shows: the seeds and first pages of twelve keys, "
         "which go through memory, the inverse that remainders are found by, which C works out once a call, and the "
         "page itself, which is read into memory as one value. Put and remove judge first and write then, but where "
         "each page's last record stands before the next page's first they work no home out again. A growth moves the "
         "records that it has to move, as C does; beside its check it counts homes, looks through those of the pages "
         "that give to the new one, and at 64 pages clears eighteen kilobytes of counts and room as for 4,096. A shrink "
         "of ours lays all records anew, and works out again the homes of those that lie off their page. C in step "
         "draws from step to step, which takes shorter products than a table, and holds a page in place, in loops made "
         "for the processor's registers. A run of ours works out the homes of twelve puts together and for the rest does for each what a "
         "call does; C works each home out by itself, and looks at the state once a run.");
}

// Grow and check look at all pages lent, so theirs is the cost of a lent page.
static void print_sizes(void) {
    puts("\n### How the cost grows with the file\n");
    puts("Nanoseconds a call for find (of held keys) and put, nanoseconds a lent page for check and grow.\n");
    puts("| keys | P | longest run of full pages | pages read by find | find, ours | find, C | pages read by put | "
         "put, ours | put, C | check, ours | check, C | grow, ours | grow, C |");
    puts("|---|--:|--:|--:|--:|--:|--:|--:|--:|--:|--:|--:|--:|");
    for (const struct figures *at = figures; at < figures + FILES; at++) {
        const double *find = at->cost[FIND_HELD].of, *put = at->cost[PUT].of, *check = at->cost[CHECK].of,
                     *grow = at->cost[GROW].of;
        if (!at->size.followed)
            continue;
        printf("| %s | %s | %u |", style_names[at->style], grouped(at->size.pages), at->longest_run);
        printf(" %.2f | %s | %s |", at->read_by_find, grouped(find[OURS]), grouped(find[C]));
        printf(" %.2f | %s | %s |", at->read_by_put, grouped(put[OURS]), grouped(put[C]));
        printf(" %s | %s |", grouped(check[OURS] / at->cap), grouped(check[C] / at->cap));
        printf(" %s | %s |\n", grouped(grow[OURS] / at->cap), grouped(grow[C] / at->cap));
    }
}

static void print_run_in_short(void) {
    struct range singles = range_of(run_to_single_calls, OURS), c = range_of(run_to_run, C),
                 in_step = range_of(run_to_run, IN_STEP);
    printf("\nIn short: a pay run of %d puts in one call takes %.3f to %.3f of the time of as many single calls, and "
           "%.2f to %.2f of the time of the same run in C (%.2f to %.2f in C in step).\n",
           RUN_PUTS, singles.least, singles.most, c.least, c.most, in_step.least, in_step.most);
}

static void print_in_short(void) {
    const struct figures *at = &figures[LARGEST];
    const struct cost *find = &at->cost[FIND_HELD], *put = &at->cost[PUT];
    const double *grow = at->grow_to_check.of, *shrink = at->shrink_to_check.of;
    struct verdict to_c = verdict_on(&calls_to_c), in_step = verdict_on(&calls_to_c_in_step),
                   change = verdict_on(&changes_to_c_in_step), random = verdict_on(&random_growths),
                   consecutive = verdict_on(&consecutive_growths), shrink_most = verdict_on(&shrinks);
    printf("\nIn short: in a file of %s pages with %s random keys, a find of a held key takes %s ns: %.2f times what "
           "the same walk in C takes, and %.2f times what C in step takes, an expert's C for vectors. A put takes %s "
           "ns, %.2f and %.2f times what they take.\n",
           grouped(at->size.pages), grouped(at->records), grouped(find->of[OURS]), find->ratio[C], find->ratio[IN_STEP],
           grouped(put->of[OURS]), put->ratio[C], put->ratio[IN_STEP]);
    printf("\nIn short: growing that file by a page takes as long as %.2f checks of it (in C %.2f, in C in step %.2f), "
           "shrinking it by a page as long as %.2f (%.2f, %.2f).\n",
           grow[OURS], grow[C], grow[IN_STEP], shrink[OURS], shrink[C], shrink[IN_STEP]);
    printf("\nIn short: the target of at most %.1f times C is met by %d of %d figures, that of at most %.1f times C in "
           "step by %d of %d, and for puts and removes from 512 pages on that of %.1f times C in step by %d of %d.\n",
           calls_to_c.most, to_c.met, to_c.all, calls_to_c_in_step.most, in_step.met, in_step.all,
           changes_to_c_in_step.most, change.met, change.all);
    printf("\nIn short: a growth should take at most %.1f checks with random keys, which %d of %d figures do, and at most "
           "%.1f with consecutive ones, which %d of %d do. Of shrinks %d of %d take at most %.1f.\n",
           random_growths.most, random.met, random.all, consecutive_growths.most, consecutive.met, consecutive.all,
           shrink_most.met, shrink_most.all, shrinks.most);
}

int main(int words, char **word) {
    const unsigned long asked = words > 1 ? strtoul(word[1], NULL, 10) : 1;
    const unsigned scale = asked ? (unsigned)asked : 1;
    for (int i = 0; i < FILES; i++) {
        figures[i].size = sizes[i % SIZES];
        figures[i].style = (enum style)(i / SIZES);
        measure(&figures[i], scale);
    }
    measure_editions(scale);
    measure_comparisons(scale);
    measure_merges(scale);
    print_head(scale);
    print_calls();
    print_verdict(&calls_to_c);
    print_verdict(&calls_to_c_in_step);
    print_verdict(&changes_to_c_in_step);
    print_resize();
    print_verdict(&random_growths);
    print_verdict(&consecutive_growths);
    print_verdict(&shrinks);
    print_runs();
    print_verdict(&runs_to_single_calls);
    print_reasons();
    print_comparisons(scale);
    print_merges(scale);
    print_sizes();
    print_editions();
    print_in_short();
    print_run_in_short();
    print_comparisons_in_short();
    print_merges_in_short();
    print_editions_in_short();
    return 0;
}
