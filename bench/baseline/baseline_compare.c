// What differs between two files of the plain register: counted, written as entries of one length, sorted by key in the
// lent room, and laid to its front.
#include "baseline_parts.h"

enum {
    ENTRY_BYTES = sizeof(struct reefcushion_only),
    UNLIKE_BYTES = sizeof(struct reefcushion_unlike),
    CLOSING_BYTES = sizeof(struct reefcushion_closing),
    MORE_BYTES = UNLIKE_BYTES - ENTRY_BYTES // that a record of two values takes
};

// A file that has passed its check.
struct checked {
    const uint8_t *area;
    uint32_t cap;
    struct way way;
};

// Checks a file, and answers where it is refused.
static uint32_t check(struct checked *file, uint16_t number, const struct reefcushion_slip *slip, const uint8_t *area,
                      size_t bytes, struct reefcushion_comparison *answer) {
    struct reefcushion_slip told;
    const uint32_t refusal = baseline_check_next(slip, area, bytes, answer->read, &told);
    answer->read = told.read;
    if (refusal) {
        answer->refusal = told.refusal;
        answer->file = number;
        answer->page = told.page;
        return refusal;
    }
    *file = (struct checked){area, slip->cap, baseline_way(slip)};
    return REEFCUSHION_ACCEPTED;
}

// The first slot with this key, or SLOTS. An empty slot has key 0, so the caller looks whether it is a record's.
static uint32_t slot_with(const uint8_t *page, uint64_t key) {
    uint32_t found = SLOTS;
    for (uint32_t i = SLOTS; i-- > 0;)
        found = load64(page + HEAD_BYTES + SLOT_BYTES * i + 4) == key ? i : found;
    return found;
}

// The slot that holds a key, or NULL. The pages were judged before, so only the home of a full page's last record has
// to be known, and that only where the page lacks the key.
static const uint8_t *seek(const struct checked *file, uint32_t home, uint64_t key) {
    for (uint32_t address = home; address < file->cap; address++) {
        const uint8_t *page = file->area + page_start(address);
        const uint32_t used = used_on(page), slot = slot_with(page, key);
        if (slot < used)
            return page + HEAD_BYTES + SLOT_BYTES * slot;
        if (used < SLOTS)
            return NULL;
        const uint64_t last = load64(page + PAGE_BYTES - SLOT_BYTES + 4);
        if (before(home, key, baseline_home(&file->way, last), last))
            return NULL;
    }
    return NULL;
}

// How many records differ, by kind, and where the next one goes, or NULL where they are only counted.
struct differences {
    uint32_t only_first, only_second, unlike;
    uint8_t *to;
};

static void note(struct differences *found, uint32_t kind, const uint8_t *slot) {
    if (found->to) {
        const struct reefcushion_only entry = {ENTRY_BYTES, (uint16_t)kind, load64(slot + 4), load64(slot + 12)};
        memcpy(found->to, &entry, ENTRY_BYTES);
        found->to += ENTRY_BYTES;
    } else {
        found->only_first += kind == REEFCUSHION_ONLY_FIRST_KIND;
        found->unlike += kind == REEFCUSHION_UNLIKE_KIND;
    }
}

// Notes what one file holds and the other doesn't, as records of this kind; and from the first file's side also what
// both hold with two values.
static void look(struct differences *found, uint32_t only, const struct checked *from, const struct checked *in) {
    struct sight sight;
    for (uint32_t address = 0; address < from->cap; address++) {
        const uint8_t *slot = from->area + page_start(address) + HEAD_BYTES;
        baseline_sight(&in->way, slot - HEAD_BYTES, &sight);
        for (uint32_t i = 0; i < sight.used; i++, slot += SLOT_BYTES) {
            const uint8_t *held = seek(in, sight.home[i], sight.key[i]);
            if (!held)
                note(found, only, slot);
            else if (only == REEFCUSHION_ONLY_FIRST_KIND && load64(held + 12) != load64(slot + 12))
                note(found, REEFCUSHION_UNLIKE_KIND, slot);
        }
    }
}

// Lays the entries to the front of the list, those of two values with the second one, which is sought again. What is
// written stays behind what is read, and where both meet the rest lies right.
static void unpack(const struct differences *found, uint8_t *list, const struct checked *second) {
    const uint8_t *from = list + MORE_BYTES * (size_t)found->unlike;
    for (uint8_t *to = list; to < from; from += ENTRY_BYTES) {
        struct reefcushion_only entry;
        memcpy(&entry, from, ENTRY_BYTES);
        if (entry.kind != REEFCUSHION_UNLIKE_KIND) {
            memcpy(to, &entry, ENTRY_BYTES);
            to += ENTRY_BYTES;
            continue;
        }
        const uint8_t *held = seek(second, baseline_home(&second->way, entry.key), entry.key);
        const struct reefcushion_unlike both = {UNLIKE_BYTES, entry.kind, entry.key, entry.value, load64(held + 12)};
        memcpy(to, &both, UNLIKE_BYTES);
        to += UNLIKE_BYTES;
    }
}

// The whole list, in room that is long enough. Entries end where the closing record begins.
static void write_list(struct differences *found, uint8_t *list, const struct checked *first,
                       const struct checked *second) {
    const uint32_t count = found->only_first + found->only_second + found->unlike;
    uint8_t *entries = list + MORE_BYTES * (size_t)found->unlike;
    found->to = entries;
    if (found->only_first + found->unlike)
        look(found, REEFCUSHION_ONLY_FIRST_KIND, first, second);
    if (found->only_second)
        look(found, REEFCUSHION_ONLY_SECOND_KIND, second, first);
    baseline_sort(entries, count);
    unpack(found, list, second);
    const struct reefcushion_closing closing = {CLOSING_BYTES, REEFCUSHION_CLOSING_KIND, found->only_first,
                                                found->only_second, found->unlike};
    memcpy(found->to, &closing, CLOSING_BYTES);
}

// What the first file doesn't share, it holds alone; so what the second holds alone needn't be counted.
uint32_t baseline_compare(const struct reefcushion_slip *slip, const uint8_t *area, size_t bytes,
                          const struct reefcushion_slip *other, const uint8_t *other_area, size_t other_bytes,
                          uint8_t *list, size_t list_bytes, struct reefcushion_comparison *answer) {
    struct checked first, second;
    struct differences found = {0};
    memset(answer, 0, sizeof *answer);
    uint32_t refusal = check(&first, 1, slip, area, bytes, answer);
    if (!refusal)
        refusal = check(&second, 2, other, other_area, other_bytes, answer);
    if (refusal)
        return refusal;
    look(&found, REEFCUSHION_ONLY_FIRST_KIND, &first, &second);
    found.only_second = other->records - (slip->records - found.only_first);
    answer->wanted = ENTRY_BYTES * (found.only_first + found.only_second) + UNLIKE_BYTES * found.unlike + CLOSING_BYTES;
    if (list_bytes < answer->wanted) {
        answer->refusal = REEFCUSHION_WRONG_ROOM;
        return REEFCUSHION_WRONG_ROOM;
    }
    write_list(&found, list, &first, &second);
    answer->length = answer->wanted;
    return REEFCUSHION_ACCEPTED;
}
