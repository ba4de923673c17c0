// Comparisons of two files, made to both sides.
#include <stdio.h>

#include "../common/grouped.h"
#include "agree_pair.h"

enum { SHIFTS = 8 }; // a list begins at any byte of a word
enum { MOST_LIST = 2 * SLOT_BYTES * SLOTS * MOST + sizeof(struct reefcushion_closing) };

// Two files as a side is lent them and where it answers, with more room than the longest list and more than one
// comparison, so that writing past the end is seen.
struct pair {
    struct lent file[2];
    uint8_t room[SHIFTS + MOST_LIST + 128];
    struct reefcushion_comparison answer[2];
};
static struct pair ours_pair, plain_pair;
unsigned long comparisons_made;
static unsigned long lists, empty_lists, only_first, only_second, unlike;

// Whatever stands in the rooms and in the answers before, on both sides.
static void fill_pairs(void) {
    for (size_t at = 0; at + 8 <= sizeof plain_pair.room; at += 8) {
        uint64_t eight = any();
        memcpy(plain_pair.room + at, &eight, 8);
    }
    memset(plain_pair.answer, (int)below(256), sizeof plain_pair.answer);
    memcpy(ours_pair.room, plain_pair.room, sizeof plain_pair.room);
    memcpy(ours_pair.answer, plain_pair.answer, sizeof plain_pair.answer);
}

// What is asked beside the files: which of them is the second, since a file may be compared with itself; and the part
// of the room that is lent, which may be nowhere where nothing is lent.
struct room {
    int second;
    size_t at, bytes;
};

static uint8_t *lent_room(struct pair *pair, const struct room *room) {
    return room->bytes || room->at ? pair->room + room->at : NULL;
}

static uint32_t ask_ours(const struct room *room, size_t slip_bytes, size_t other_bytes, size_t answer_bytes) {
    const struct lent *first = &ours_pair.file[0], *second = &ours_pair.file[room->second];
    return reefcushion_compare(&first->slip, slip_bytes, first->area, first->bytes, &second->slip, other_bytes,
                               second->area, second->bytes, lent_room(&ours_pair, room), room->bytes, ours_pair.answer,
                               answer_bytes);
}

static uint32_t ask_plain(const struct room *room, bool in_step) {
    const struct lent *first = &plain_pair.file[0], *second = &plain_pair.file[room->second];
    baseline_in_step = in_step;
    return baseline_compare(&first->slip, first->area, first->bytes, &second->slip, second->area, second->bytes,
                            lent_room(&plain_pair, room), room->bytes, plain_pair.answer);
}

static void compare_pairs(int row, uint32_t left, uint32_t right) {
    if (left != right)
        differ(row, "the result", left, right);
    compare_bytes(row, "the comparison", ours_pair.answer, plain_pair.answer, sizeof plain_pair.answer);
    compare_bytes(row, "the room for the list", ours_pair.room, plain_pair.room, sizeof plain_pair.room);
    compare_bytes(row, "the first file", &ours_pair.file[0], &plain_pair.file[0], sizeof plain_pair.file[0]);
    compare_bytes(row, "the second file", &ours_pair.file[1], &plain_pair.file[1], sizeof plain_pair.file[1]);
}

static void see_list(const uint8_t *end) {
    struct reefcushion_closing closing;
    memcpy(&closing, end - sizeof closing, sizeof closing);
    lists++;
    empty_lists += closing.only_first + closing.only_second + closing.unlike == 0;
    only_first += closing.only_first;
    only_second += closing.only_second;
    unlike += closing.unlike;
}

// One comparison by both sides; gives how many bytes its list takes, or 0 where a file is refused.
static uint32_t ask_pair(const struct room *room) {
    const bool in_step = one_in(2);
    const struct reefcushion_comparison *answer = plain_pair.answer;
    fill_pairs();
    const uint32_t left = ask_ours(room, sizeof plain.slip, sizeof plain.slip, sizeof *answer);
    const uint32_t right = ask_plain(room, in_step), row = answer->file == 2 ? COMPARE_SECOND : COMPARE;
    compare_pairs((int)row, left, right);
    see((int)row, right, in_step);
    if (right == REEFCUSHION_ACCEPTED)
        see_list(plain_pair.room + room->at + answer->length);
    comparisons_made++;
    return answer->wanted;
}

// Slips and comparisons that are a byte too short or too long: nothing is done.
static void ask_with_wrong_lengths(const struct room *room) {
    for (int wrong = 0; wrong < 3; wrong++) {
        size_t length[3] = {sizeof plain.slip, sizeof plain.slip, sizeof plain_pair.answer[0]};
        length[wrong] += one_in(2) ? 1 : (size_t)-1;
        compare_pairs(COMPARE, ask_ours(room, length[0], length[1], length[2]), REEFCUSHION_NO_SLIP);
    }
}

// The first time with no room, which tells how much a list takes; then with that much, less and more.
static void ask_with_rooms(int second) {
    struct room room = {.second = second};
    const uint32_t wanted = ask_pair(&room);
    if (wanted) {
        const size_t rooms[4] = {wanted, wanted - 1, wanted + 1 + below(100), below(wanted)};
        for (int i = 0; i < 4; i++) {
            room.at = below(SHIFTS);
            room.bytes = rooms[i];
            ask_pair(&room);
        }
    }
    if (one_in(4))
        ask_with_wrong_lengths(&room);
}

void ask_comparisons(bool whole) {
    lend_pair(plain_pair.file, whole);
    memcpy(ours_pair.file, plain_pair.file, sizeof plain_pair.file);
    ask_with_rooms(one_in(8) ? 0 : 1);
}

bool tell_lists(void) {
    printf("Two files were compared %s times, and %s lists were written, %s of them with the closing record alone. The "
           "others told %s records that only the first file held, %s that only the second held, and %s keys with two "
           "values.\n\n",
           grouped((double)comparisons_made), grouped((double)lists), grouped((double)empty_lists),
           grouped((double)only_first), grouped((double)only_second), grouped((double)unlike));
    return empty_lists && only_first && only_second && unlike;
}
