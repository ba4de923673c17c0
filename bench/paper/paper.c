// Fills files through the product's calls as Larson did in his simulations, and prints the pages read in searches
// beside his figures, in Markdown: paper [LOADINGS POINTS none|one|all [PLOT.svg]].
#include <stdio.h>
#include <stdlib.h>
#include <string.h>

#include "../common/grouped.h"
#include "paper.h"

static void print_head(struct effort effort) {
    puts("## Pages read in a search, beside Larson's figures\n");
    puts("A search looks at a key's home page and, where that doesn't decide, at the pages above it. Larson told by "
         "simulation how many pages a search reads on average (his disk accesses). Here files are filled through the "
         "proved calls as in his simulations, and searches are counted. A page holds 12 records here; his hold 10, 20 "
         "or 40, and the number of records a page holds stands behind the name of each column.\n");
    puts("- ours: what find says that it read.");
    puts("- by his rule: what the same unsuccessful searches in the same files would have read had they gone on to the "
         "first page that isn't full, as his do.");
    puts("- his: the figure in his paper.");
    puts("- counted: his own page sizes and his rule, from the numbers of records alone and without the register, to "
         "see whether this harness measures what he measured.\n");
    printf("Files are filled with random keys and looked at over one full expansion, from %s to %s pages (his: 1,000 "
           "to 2,000), each at the moment when the next growth is due. Growing whenever it is due would take a check "
           "of the whole file each time. So an empty file is grown to each size, puts fill it until the next growth is "
           "due, and check has to accept it: as there is one image only, which is proved, these are the bytes that "
           "growing as he did gives. Which files were grown as well, and compared, is said below the tables.\n\n",
           grouped(FIRST), grouped(2 * FIRST));
    printf("Each figure is the mean of %d loadings, each looked at in %d sizes, %d sizes in all, evenly spaced; at "
           "each size there are %s searches for held records and %s for keys never put. After ± stands the standard "
           "error over the loadings. With one sweep the pages that aren't yet split fill beyond their room, and what "
           "overflows grows with the file, so those figures can be compared at like sizes only.\n\n",
           effort.loadings, effort.points, effort.loadings * effort.points, grouped(SEARCHES), grouped(SEARCHES));
}

static void print_grown(struct effort effort) {
    puts("\n### Files that were grown\n");
    if (effort.grown == GROWN_NONE)
        puts("In this run no file was grown page by page.");
    else
        printf("%s page by page from %d pages on as well, whenever that was due: at each size looked at, the bytes "
               "were the same.\n",
               effort.grown == GROWN_ALL
                   ? "Each of our files with random keys in the tables above was grown"
                   : "Of our files, those of the first loading at n0 2, s 5, load 0.8, and no others, were grown",
               START);
}

// The plot is linked by its name alone, since it stands beside the document.
static void print_plot(const char *name, struct effort effort) {
    const char *last = name;
    for (const char *at = name; *at; at++)
        last = *at == '/' ? at + 1 : last;
    plot(name, effort);
    puts("\n### Over the expansion (his Figures 2 and 3)\n");
    puts("Files at load 0.8 while they grow, with two sweeps and with four. His figures are for pages of 20.\n");
    printf("![Pages read in successful and unsuccessful searches, over a full expansion](%s)\n", last);
}

static void print_in_short(struct effort effort) {
    const struct kind kind = {2, 5, 80};
    struct averages ours = product_averages(kind, effort);
    const struct larson *ten = larson(2, kind, 10), *twenty = larson(2, kind, 20);
    printf("\nIn short: at load %g (n0 %d, s %d) a successful search reads %.2f pages of %d records on average, "
           "where Larson has %.2f for pages of 10 and %.2f for pages of 20; an unsuccessful one reads %.2f, where he "
           "has %.2f and %.2f, since records stand in order here.\n",
           load_of(kind), kind.n0, kind.sweeps, ours.hit.mean, SLOTS, ten->hit, twenty->hit, ours.miss.mean, ten->miss,
           twenty->miss);
}

static int number(const char *text, int low, int high) {
    char *end;
    unsigned long value = strtoul(text, &end, 10);
    if (*text == 0 || *end != 0 || value < (unsigned long)low || value > (unsigned long)high)
        stop("a number is out of range, the highest being", high);
    return (int)value;
}

static enum grown grown_from(const char *text) {
    static const char *const names[] = {[GROWN_NONE] = "none", [GROWN_ONE] = "one", [GROWN_ALL] = "all"};
    for (int i = 0; i < 3; i++) {
        if (strcmp(text, names[i]) == 0)
            return (enum grown)i;
    }
    stop("grown files are none, one or all, the word being", 3);
}

static struct effort effort_from(int words, char **word) {
    struct effort effort = {5, 11, GROWN_ONE};
    if (words >= 4) {
        effort.loadings = number(word[1], 2, 100);
        effort.points = number(word[2], 1, 100);
        effort.grown = grown_from(word[3]);
    }
    return effort;
}

int main(int words, char **word) {
    if (words != 1 && words != 4 && words != 5) {
        fputs("usage: paper [LOADINGS POINTS none|one|all [PLOT.svg]]\n", stderr);
        return 2;
    }
    struct effort effort = effort_from(words, word);
    print_head(effort);
    print_sweeps(effort);
    if (words == 5)
        print_plot(word[4], effort);
    print_loads(effort);
    print_editions();
    print_grown(effort);
    print_in_short(effort);
    print_separators(effort);
    print_control(effort);
    return 0;
}
