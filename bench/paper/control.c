// Where `due` stands among the rules that others expand a file by. The five rules and their figures are facts of the
// paper by Baeza-Yates and Soza-Pollman (Analysis of Linear Hashing Revisited), its Tables II and III among them.
#include <stdio.h>

#include "paper.h"

static void print_rules(void) {
    puts("\n### When a growth is due, beside control functions\n");
    puts("Baeza-Yates and Soza-Pollman, who look at linear hashing with chains of overflow buckets, call the rule by "
         "which a file expands its control function, and tell five apart. It expands (1) when an insertion overflows, "
         "which is Litwin's rule, (2) when one does and the storage utilisation is above a limit too, (3) when the "
         "utilisation is above a limit, which is Larson's, (4) when a successful search is expected to cost more than "
         "a limit, or (5) when so many more records have come. The first and the last go by single events, the third "
         "and the fourth by a measure of the whole file, the second by both. So (3) holds the utilisation and (4) the "
         "cost of a search; under (1) neither is held.\n");
}

static void print_due(struct effort effort) {
    const struct averages ours = product_averages((struct kind){2, 5, 80}, effort);
    printf("`due` is a rule like (3), and Larson's paper of 1985 has it too: growth is due exactly while 5r > 48P, so "
           "a caller who grows then holds the load at four fifths. In (3) overflow buckets count as room too, so the "
           "home buckets fill further: with buckets of 10, overflow buckets of 5 and a limit of 0.8 an expansion "
           "begins when there are 0.96 records for each place in them. Here nothing is set apart for overflow, load "
           "and utilisation are one number, and as long as nothing is removed `due` is (5) as well, with a page for "
           "each 9.6 records. The cost of a search isn't held: it swings while a file expands, and depends on the "
           "keys. In their figures, for those sizes, (1) comes to a utilisation of 0.56 to 0.61, with 1.03 accesses "
           "in a successful search on average over an expansion and 1.16 in an unsuccessful one where that is "
           "highest; (2) with the limit 0.8 comes to 1.23 and 1.91, and they find it almost the same as (3) where the "
           "limit is high. At load 0.8 ours read %.2f and %.2f on average, with pages of %d.\n\n",
           ours.hit.mean, ours.miss.mean, SLOTS);
    puts("What differs besides: the limit is fixed, where theirs is chosen. It is asked of r and P alone and in whole "
         "numbers, so the order in which records came has no part in it, and sites agree. And it is an answer, not an "
         "act: nothing grows by itself, puts go on above the limit as long as there is room, and a growth that isn't "
         "due is made all the same.");
}

void print_control(struct effort effort) {
    print_rules();
    print_due(effort);
}
