// A register from C: a file is formatted, fed, asked, grown and checked, a pay run is put in one call, a file of the
// second edition is made, one is shrunk after its leavers, two are compared, and one is merged into the other. What it
// prints stands in example.out.
#include <stdbool.h>
#include <stdio.h>
#include <string.h>

#include "reefcushion.h"

enum { PAGES = 2, PUTS = 18, OTHER_PAGES = 3, MOST_LIST = 1000 };

// All that a register is to its caller: a slip with the state, the pages, and for growths and merges a row.
static struct reefcushion_slip slip;
static uint8_t area[PAGES * REEFCUSHION_PAGE];
static uint32_t row[PAGES];

// A pay run: its puts, and room for a reply to each.
static struct reefcushion_put_record records[PUTS];
static struct reefcushion_reply replies[PUTS];

// Another site's register, of other parameters, and room for what differs: 20 bytes for each record of both and 16 more
// are always enough.
static struct reefcushion_slip other;
static uint8_t other_area[OTHER_PAGES * REEFCUSHION_PAGE];
static uint8_t list[MOST_LIST];

static const char *words(uint32_t refusal) {
    switch (refusal) {
    case REEFCUSHION_ACCEPTED:
        return "accepted";
    case REEFCUSHION_OUT_OF_RANGE:
        return "a number of the state is out of range";
    case REEFCUSHION_WRONG_AREA:
        return "the area isn't 256 bytes a page";
    case REEFCUSHION_WRONG_ROW:
        return "the row isn't a count a page";
    case REEFCUSHION_BROKEN:
        return "a page is broken";
    case REEFCUSHION_ABSENT:
        return "absent";
    case REEFCUSHION_HELD:
        return "held already";
    case REEFCUSHION_NO_ROOM:
        return "no room";
    case REEFCUSHION_AT_CAP:
        return "all lent pages are grown to";
    case REEFCUSHION_NOT_IMAGE:
        return "the count or the image is wrong";
    case REEFCUSHION_NOT_PUTS:
        return "these aren't put records end to end";
    case REEFCUSHION_CLASH:
        return "clash";
    case REEFCUSHION_AT_START:
        return "the file has the pages that it started with";
    case REEFCUSHION_WRONG_ROOM:
        return "the room isn't a reply a record";
    case REEFCUSHION_NO_SLIP:
        return "the slip isn't 40 bytes";
    default:
        return "no answer of the register";
    }
}

// A refusal in words, with the page or the commit that it tells.
static void say_refusal(uint32_t refusal, uint32_t page, uint64_t value) {
    printf(": %s", words(refusal));
    if (refusal == REEFCUSHION_BROKEN)
        printf(", page %u", page);
    if (refusal == REEFCUSHION_HELD)
        printf(", as commit %llu", (unsigned long long)value);
    if (refusal == REEFCUSHION_CLASH)
        printf(": commit %llu is held", (unsigned long long)value);
}

// An answer in words, behind what was asked. The slip tells the rest of it, unless there was none.
static void say(const struct reefcushion_slip *told, uint32_t refusal) {
    say_refusal(refusal, told->page, told->value);
    if (refusal != REEFCUSHION_NO_SLIP)
        printf(" (%u read, %u moved)", told->read, told->moved);
    printf("\n");
}

static void grow(uint32_t *counts, size_t how_many) {
    printf("grow");
    uint32_t refusal = reefcushion_grow(&slip, sizeof slip, area, sizeof area, counts, how_many);
    say(&slip, refusal);
    if (refusal == REEFCUSHION_ACCEPTED || refusal == REEFCUSHION_NO_ROOM)
        printf("  homes on page 0: %u, on page 1: %u\n", counts[0], counts[1]);
}

// A file grows only when it is asked to, so whoever puts asks whether that is due.
static void put(uint64_t request, uint64_t commit) {
    printf("put %llu", (unsigned long long)request);
    say(&slip, reefcushion_put(&slip, sizeof slip, area, sizeof area, request, commit));
    if (reefcushion_due(&slip, sizeof slip)) {
        printf("  growth is due: %u records on %u of %u pages\n", slip.records, slip.pages, slip.cap);
        grow(row, PAGES);
    }
}

static void find(uint64_t request) {
    printf("find %llu", (unsigned long long)request);
    uint32_t refusal = reefcushion_find(&slip, sizeof slip, area, sizeof area, request);
    say(&slip, refusal);
    if (refusal == REEFCUSHION_ACCEPTED)
        printf("  it became commit %llu\n", (unsigned long long)slip.value);
}

static void take_out(uint64_t request) {
    printf("remove %llu", (unsigned long long)request);
    say(&slip, reefcushion_remove(&slip, sizeof slip, area, sizeof area, request));
}

// Nothing shrinks by itself either. A page is given up only where the rest would be filled to three fifths at most, so
// that a few new requests don't make the file grow again.
static void shrink(void) {
    bool worth_it = 5 * slip.records <= 36 * (slip.pages - 1u);
    printf("shrink, %s it with %u records on %u of %u pages", worth_it ? "worth" : "not worth", slip.records, slip.pages,
           slip.cap);
    say(&slip, reefcushion_shrink(&slip, sizeof slip, area, sizeof area));
}

// The puts of a run: a repeat, a clash, and more new requests than there is room for.
static void fill_run(void) {
    for (uint64_t i = 0; i < PUTS; i++)
        records[i] = (struct reefcushion_put_record){REEFCUSHION_PUT_LENGTH, REEFCUSHION_PUT_KIND, 80000 + i, 700 + i};
    records[0].key = 1002;
    records[0].value = 502;
    records[1].key = 1003;
}

// An accepted run has put each record and written each reply: what a put was refused for stands there alone.
static void say_replies(void) {
    int stored = 0;
    for (int i = 0; i < PUTS; i++) {
        if (replies[i].refusal == REEFCUSHION_ACCEPTED) {
            stored++;
            continue;
        }
        printf("  put %llu", (unsigned long long)records[i].key);
        say_refusal(replies[i].refusal, replies[i].page, replies[i].value);
        printf("\n");
    }
    const struct reefcushion_reply *last = &replies[PUTS - 1];
    printf("  %d stored: %u records on %u pages, growth %s due\n", stored, slip.records, last->pages,
           last->due ? "is" : "isn't");
}

static void pay_run(size_t replies_bytes) {
    printf("run of %d puts", PUTS);
    uint32_t refusal =
        reefcushion_put_run(&slip, sizeof slip, area, sizeof area, records, sizeof records, replies, replies_bytes);
    say_refusal(refusal, 0, 0);
    printf("\n");
    if (refusal == REEFCUSHION_ACCEPTED)
        say_replies();
}

// The area held against a state, which need not be that of today.
static void check(struct reefcushion_slip *state) {
    printf("check");
    say(state, reefcushion_check(state, sizeof *state, area, sizeof area));
}

// A file of one page to begin with: one page a group, one group, one sweep.
static void format(size_t slip_bytes, void *pages, size_t pages_bytes) {
    printf("format");
    say(&slip, reefcushion_format(&slip, slip_bytes, pages, pages_bytes, 1, 1, 1, PAGES));
}

// The same of an edition that is asked for.
static void format_edition(uint16_t edition) {
    printf("format, edition %u", edition);
    say(&slip, reefcushion_format_edition(&slip, sizeof slip, area, sizeof area, 1, 1, 1, PAGES, edition));
    printf("  the state is of edition %u\n", slip.edition_less_1 + 1);
}

static void put_there(uint64_t request, uint64_t commit) {
    printf("put %llu there", (unsigned long long)request);
    say(&other, reefcushion_put(&other, sizeof other, other_area, sizeof other_area, request, commit));
}

// A list is read record by record: each begins with its length and kind, and may lie at any byte, so it is copied.
static void say_list(size_t length) {
    for (size_t at = 0; at < length;) {
        struct reefcushion_only only;
        struct reefcushion_unlike unlike;
        struct reefcushion_closing closing;
        uint16_t head[2];
        memcpy(head, list + at, sizeof head);
        if (head[1] == REEFCUSHION_UNLIKE_KIND) {
            memcpy(&unlike, list + at, sizeof unlike);
            printf("  %llu: commit %llu here, commit %llu there\n", (unsigned long long)unlike.key,
                   (unsigned long long)unlike.first_value, (unsigned long long)unlike.second_value);
        } else if (head[1] == REEFCUSHION_CLOSING_KIND) {
            memcpy(&closing, list + at, sizeof closing);
            printf("  %u only here, %u only there, %u with two commits\n", closing.only_first, closing.only_second,
                   closing.unlike);
        } else {
            memcpy(&only, list + at, sizeof only);
            printf("  %llu: commit %llu only %s\n", (unsigned long long)only.key, (unsigned long long)only.value,
                   head[1] == REEFCUSHION_ONLY_FIRST_KIND ? "here" : "there");
        }
        at += head[0];
    }
}

// What differs between the two sites, in so much room; gives how much the list takes.
static size_t compare(size_t room) {
    struct reefcushion_comparison told;
    uint32_t refusal = reefcushion_compare(&slip, sizeof slip, area, sizeof area, &other, sizeof other, other_area,
                                           sizeof other_area, list, room, &told, sizeof told);
    printf("compare, with room for %u bytes: %s", (unsigned)room,
           refusal == REEFCUSHION_WRONG_ROOM ? "the list is longer" : words(refusal));
    if (refusal == REEFCUSHION_BROKEN)
        printf(", page %u %s", told.page, told.file == 1 ? "here" : "there");
    printf(" (%u read, %u bytes wanted, %u written)\n", told.read, told.wanted, told.length);
    say_list(told.length);
    return told.wanted;
}

// The first comparison is lent no room, and tells how much to lend to the next.
static void compare_sites(void) {
    reefcushion_format(&other, sizeof other, other_area, sizeof other_area, 1, 2, 1, OTHER_PAGES);
    for (uint64_t i = 1; i <= 11; i += 2)
        put_there(i, i == 5 ? 999 : 800 + i);
    size_t wanted = compare(0);
    compare(wanted);
    other_area[REEFCUSHION_PAGE] ^= 1;
    compare(wanted);
}

// The other site's records into this register. Which of the two files a refusal is about stands in the slip.
static void merge(void) {
    uint32_t before = slip.records;
    uint32_t refusal = reefcushion_merge(&slip, sizeof slip, area, sizeof area, &other, sizeof other, other_area,
                                         sizeof other_area, row, PAGES);
    printf("merge: %s", words(refusal));
    if (refusal == REEFCUSHION_BROKEN)
        printf(", page %u %s", slip.page, slip.file == 1 ? "here" : "there");
    if (refusal == REEFCUSHION_CLASH)
        printf(": two commits for %llu", (unsigned long long)slip.value);
    printf(" (%u read)\n", slip.read);
    uint32_t added = slip.records - before;
    if (refusal == REEFCUSHION_ACCEPTED)
        printf("  %u came, %u held already: %u records, homes on page 0: %u, on page 1: %u\n", added,
               other.records - added, slip.records, row[0], row[1]);
}

// The first merge still meets the broken page. Whoever calls has to settle which commit a clashing request became.
static void merge_sites(void) {
    merge();
    reefcushion_format(&other, sizeof other, other_area, sizeof other_area, 1, 3, 1, OTHER_PAGES);
    for (uint64_t i = 9; i <= 12; i++)
        put_there(i, i == 10 ? 999 : 800 + i);
    merge();
    take_out(10);
    merge();
    find(10);
    check(&slip);
}

int main(void) {
    printf("Refused, and nothing done:\n");
    format(sizeof slip - 1, area, sizeof area);
    format(sizeof slip, NULL, 0);
    find(1001);

    printf("Ten requests on one page of two:\n");
    format(sizeof slip, area, sizeof area);
    for (uint64_t i = 1; i <= 6; i++)
        put(1000 + i, 500 + i);
    for (uint64_t i = 1; i <= 4; i++)
        put(70000 + i, 600 + i);

    printf("A retry is told its commit, and that another one was offered:\n");
    put(1004, 504);
    put(1004, 999);
    find(1004);
    find(70002);
    find(1007);

    printf("The state is a value, and an older one doesn't fit the pages of today:\n");
    struct reefcushion_slip older = slip;
    take_out(1001);
    find(1001);
    check(&slip);
    check(&older);
    printf("put 1002 by the older state");
    say(&older, reefcushion_put(&older, sizeof older, area, sizeof area, 1002, 999));

    printf("A pay run in one call, with a repeat, a clash and more than there is room for:\n");
    fill_run();
    pay_run(sizeof replies - 1);
    records[PUTS - 1].kind = 259;
    pay_run(sizeof replies - 1);
    records[PUTS - 1].kind = REEFCUSHION_PUT_KIND;
    pay_run(sizeof replies);
    check(&slip);

    printf("A row that isn't there, no page left to grow to, a broken page:\n");
    grow(NULL, 0);
    grow(row, PAGES);
    area[REEFCUSHION_PAGE] ^= 1;
    check(&slip);

    printf("An edition that there isn't, and one in which half of these numbers move where all would in edition 1:\n");
    format_edition(3);
    format_edition(2);
    for (uint64_t i = 1; i <= 10; i++)
        put(i, 800 + i);
    check(&slip);

    printf("Four leave, and the page that was added is given up; there is no other:\n");
    for (uint64_t i = 1; i <= 4; i++)
        take_out(2 * i);
    shrink();
    check(&slip);
    find(9);
    shrink();

    printf("What differs at another site, where two groups of a page were the start:\n");
    compare_sites();

    printf("That site is made anew and then retired, and its records come here:\n");
    merge_sites();
    return 0;
}
