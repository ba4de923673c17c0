// Keys that run upward, in files of either edition.
#include <stdio.h>

#include "../common/grouped.h"
#include "paper.h"

static void print_row(struct file *file) {
    struct reads held = {0, 0, 0}, absent = {0, 0, 0}, by_his_rule = {0, 0, 0};
    search_all_held(file, &held);
    search_absent(file, &absent, &by_his_rule);
    printf("| %s | %d | %s | %.3f | %d | %.3f | %.3f | %u |\n", grouped(file->slip.pages),
           file->slip.edition_less_1 + 1, grouped(file->slip.records), mean_read(held), held.most, mean_read(absent),
           mean_read(by_his_rule), longest_full_run(file->area, file->slip.cap));
}

void print_editions(void) {
    static const int sizes[3] = {64, 512, 4088};
    static struct file file;
    puts("\n### Keys that run upward, in edition 1 and in edition 2\n");
    printf("His keys are random. Request numbers run upward from small values, and in edition 1 all numbers up to "
           "42,590 move at the first step of growth, so that the first pages stay empty and those after them overflow. "
           "Edition 2 takes each step's draw ten later. Here the keys from 0 on fill files of n0 2, N 8, s 5 until the "
           "next growth is due; %s pages are lent, and even the largest file has some left for what overflows. Each "
           "record is sought once, and then the %s numbers that come next. By his rule is also what a put of those "
           "would read.\n\n",
           grouped(MOST_PAGES), grouped(SEARCHES));
    puts("| P | edition | records | successful | most pages read | unsuccessful | by his rule | longest run of full "
         "pages |");
    puts("|--:|--:|--:|--:|--:|--:|--:|--:|");
    for (int i = 0; i < 3; i++)
        for (uint16_t edition = 1; edition <= 2; edition++) {
            lay_upward(&file, edition, sizes[i]);
            must_be_counted(&file);
            print_row(&file);
        }
}
