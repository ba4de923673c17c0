// Drives the proved calls and the plain ones with the same random calls and requires the same results, slips, areas,
// rows, replies and lists after each: agree [ROUNDS [SEED]].
#include <stdio.h>
#include <stdlib.h>
#include <string.h>

#include "../common/grouped.h"
#include "../common/random.h"
#include "agree.h"

static uint64_t seed, place;
static unsigned long files_of[2]; // by edition
static struct side saved;

uint64_t any(void) {
    return random_at(seed, place++);
}

uint32_t below(uint32_t bound) {
    return (uint32_t)(any() % bound);
}

bool one_in(uint32_t n) {
    return below(n) == 0;
}

static struct asked right_for_the_file(enum call call) {
    const struct reefcushion_slip *slip = &plain.slip;
    const struct reefcushion_put_record put = any_put();
    struct asked asked = {.bytes = page_start(slip->cap),
                          .counts = slip->cap,
                          .key = put.key,
                          .value = put.value,
                          .n0 = slip->n0,
                          .groups = slip->groups,
                          .sweeps = slip->sweeps,
                          .cap = slip->cap,
                          .edition = (uint16_t)(slip->edition_less_1 + 1),
                          .in_step = one_in(2)};
    if (call == PUT_RUN)
        add_run(&asked);
    return asked;
}

// Either call that formats; the one doesn't look at the edition that is asked for.
static enum call any_format(void) {
    return one_in(2) ? FORMAT : FORMAT_EDITION;
}

static void begin_file(uint32_t most) {
    struct asked asked = {.n0 = 1 + below(4),
                          .groups = 1 + below(most < 64 ? most : 64),
                          .sweeps = 1 + below(8),
                          .edition = 1 + below(2),
                          .in_step = one_in(2)};
    if (one_in(3))
        asked.n0 = asked.groups = 1;
    while (asked.n0 * asked.groups > (int)most)
        asked.groups = 1 + below(asked.groups);
    const uint32_t start = asked.n0 * asked.groups;
    asked.cap = (uint16_t)(start + below(most - start + 1));
    asked.bytes = page_start(asked.cap);
    for (size_t i = 0; i < sizeof plain.area; i++)
        plain.area[i] = (uint8_t)any();
    memcpy(ours.area, plain.area, sizeof plain.area);
    ask(asked.edition == 1 ? any_format() : FORMAT_EDITION, &asked);
    files_of[plain.slip.edition_less_1]++;
    choose_pool();
}

static enum call any_call(void) {
    uint32_t n = below(44);
    return n < 18   ? PUT
           : n < 25 ? FIND
           : n < 32 ? REMOVE
           : n < 35 ? GROW
           : n < 38 ? SHRINK
           : n < 41 ? CHECK
           : n < 43 ? DUE
                    : PUT_RUN;
}

// Some calls on a file that is damaged in one way or several, then the file as it was. Runs are asked for more often
// than elsewhere, so that their puts meet every refusal.
static void ask_damaged(void) {
    const uint32_t cap = plain.slip.cap;
    saved = plain;
    if (one_in(3))
        damage_slip(&plain.slip);
    else if (one_in(2))
        damage_page(plain.area + page_start(below(cap)));
    else
        for (uint32_t page = below(cap), left = 1 + below(5); page < cap && left; page++, left--)
            make_page(page);
    ours = plain;
    for (uint32_t left = 1 + below(12); left; left--) {
        enum call call = one_in(16) ? PUT_RUN : one_in(30) ? any_format() : any_call();
        struct asked asked = right_for_the_file(call);
        if (plain.slip.cap > MOST)
            asked.bytes = page_start(cap);
        ask(call, &asked);
    }
    if (one_in(8))
        ask_comparisons(false);
    if (one_in(8))
        ask_merges(false);
    ours = plain = saved;
}

static void ask_with_wrong_numbers(void) {
    struct asked asked = right_for_the_file(PUT_RUN);
    struct reefcushion_slip numbers = plain.slip;
    if (one_in(2))
        asked.bytes = one_in(2) ? asked.bytes - 1 - below(256) : asked.bytes + 1;
    if (one_in(2))
        asked.counts = one_in(2) ? asked.counts - 1 : asked.counts + 1;
    damage_slip(&numbers);
    saved = plain;
    if (numbers.cap <= MOST && numbers.n0 * numbers.groups <= MOST) {
        struct asked format = asked;
        format.n0 = numbers.n0, format.groups = numbers.groups, format.sweeps = numbers.sweeps,
        format.cap = numbers.cap, format.edition = (uint16_t)(numbers.edition_less_1 + 1);
        ask(any_format(), &format);
        ours = plain = saved;
    }
    ask(one_in(2) ? GROW : one_in(4) ? SHRINK : any_call(), &asked);
    ours = plain = saved;
    ask_with_wrong_slip(&asked);
}

// How a file comes to its size: it grows as soon as that is due; or as it comes; or late, so that very many records
// move at once, and shrinks then too; or it grows and shrinks with the tide, by the rules that the header has.
enum pace { EAGER, CASUAL, LATE, TIDAL, PACES };

static bool time_to_grow(enum pace pace) {
    const struct reefcushion_slip *slip = &plain.slip;
    return pace == LATE ? slip->records > 7u * slip->cap : slip->records > 6u * slip->pages;
}

static bool time_to_shrink(enum pace pace) {
    const struct reefcushion_slip *slip = &plain.slip;
    return slip->pages > slip->n0 * slip->groups &&
           (pace == LATE ? time_to_grow(LATE) : 5 * slip->records <= 36 * (slip->pages - 1u));
}

// Mostly a call that makes sense now. A growth or a shrink that doesn't gives way to what brings its time nearer, and
// at ebb records go.
static enum call call_for(enum pace pace, bool ebb) {
    enum call call = any_call();
    if (call == GROW && !time_to_grow(pace) && !one_in(30))
        call = PUT;
    if (call == SHRINK && !time_to_shrink(pace) && !one_in(30))
        call = REMOVE;
    return ebb && (call == PUT || call == PUT_RUN) ? REMOVE : call;
}

// Growths and shrinks of a file that is full or nearly, then the file as it was. It is filled on the plain side alone,
// since puts are compared elsewhere, until so many keys have found no room.
static void ask_full(void) {
    struct asked asked = right_for_the_file(SHRINK);
    saved = plain;
    for (uint32_t left = 100; left;)
        left -= baseline_put(&plain.slip, plain.area, asked.bytes, any(), any()) == REEFCUSHION_NO_ROOM;
    ours = plain;
    for (uint32_t left = 1 + below(4); left; left--)
        ask(one_in(3) ? GROW : SHRINK, &asked);
    ours = plain = saved;
}

// What the pace of a file asks for beside any call.
static void keep_pace(enum pace pace, bool ebb) {
    struct asked asked = right_for_the_file(CHECK);
    if ((pace == EAGER || (pace == TIDAL && !ebb)) && ask(DUE, &asked))
        ask(GROW, &asked);
    if (pace == TIDAL && ebb && time_to_shrink(pace))
        ask(SHRINK, &asked);
    if (one_in(40u * plain.slip.cap))
        ask_full();
    if (one_in(60)) {
        enum call there = one_in(2) ? GROW : SHRINK;
        ask_there_and_back(there, there == GROW ? SHRINK : GROW, &asked);
    }
}

// One file from its format on. The tide turns every so many calls.
static void use_file(uint32_t calls, enum pace pace) {
    const uint32_t tide = calls / (2 + 2 * below(4));
    for (; calls; calls--) {
        const bool ebb = pace == TIDAL && calls / tide % 2 == 0;
        enum call call = call_for(pace, ebb);
        struct asked asked = right_for_the_file(call);
        ask(call, &asked);
        keep_pace(pace, ebb);
        if (one_in(16))
            ask_damaged();
        if (one_in(40))
            ask_with_wrong_numbers();
        if (one_in(60))
            keep_file();
        if (one_in(30u + plain.slip.cap))
            ask_comparisons(true);
        if (one_in(30u + plain.slip.cap))
            ask_merges(true);
    }
    struct asked asked = right_for_the_file(CHECK);
    ask(CHECK, &asked);
}

static void tell_what_is_asked(void) {
    puts("## Whether ours and C do the same\n");
    puts("The proved calls and the register in C that they are measured against get the same random calls: on files as "
         "calls leave them and on damaged ones, with right numbers and with wrong ones. After each call the answers, "
         "the areas, the rows and the rooms for replies and lists have to be the same, byte for byte. Before each call "
         "it is drawn in which of its two ways C works homes out (key by key or in step, see below).\n");
    printf("Where a growth is followed at once by a shrink, or a shrink by a growth, the file has to be what it was "
           "before both: so it was, each of the %s times that the first of the two was accepted.\n\n",
           grouped((double)ways_there_and_back));
}

int main(int words, char **word) {
    static const uint32_t most[3] = {12, 70, MOST}, calls[3] = {400, 2500, 9000};
    const unsigned long rounds = words > 1 ? strtoul(word[1], NULL, 10) : 300;
    unsigned long files[3] = {0};
    seed = words > 2 ? strtoul(word[2], NULL, 10) : 1;
    for (unsigned long round = 0; round < rounds; round++) {
        uint32_t size = round % 20 == 19 ? 2 : round % 4 == 3;
        begin_file(most[size]);
        use_file(calls[size], below(PACES));
        files[size]++;
    }
    tell_what_is_asked();
    const bool lists_told = tell_lists(), all_told = tell_merges() && lists_told;
    printf("Files of up to %u, %u and %u pages: %lu, %lu and %lu. Files of edition 1 and of edition 2: %lu and %lu. "
           "How often each call gave each answer (0 is accepted, the others are the refusals; for due 1 is yes):\n\n",
           most[0], most[1], most[2], files[0], files[1], files[2], files_of[0], files_of[1]);
    if (!tell_what_was_seen() || !all_told)
        return 1;
    printf("\nIn short: the proved calls and the register in C did the same, to the byte, in %s random calls, among "
           "them %s pay runs with %s puts, and in %s comparisons and %s merges of two files.\n",
           grouped((double)calls_made), grouped((double)runs_made), grouped((double)puts_in_runs),
           grouped((double)comparisons_made), grouped((double)merges_made));
    return 0;
}
