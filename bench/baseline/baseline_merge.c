// Merge of the plain register: each record of the other file is looked up among the living ones, and where there is
// room for both sets the living area is laid anew, with no other memory.
#include "baseline_resize.h"

// A merge at work. Places and entries are fewer than 2^16, and so are the records of one home in one file.
struct merge {
    struct way way; // of the living file
    struct resize living;
    uint16_t end[MOST_PAGES];  // of each home: where its living records end; once they are packed, its next free entry
    uint16_t more[MOST_PAGES]; // of each home: the records that only the other file holds
    uint16_t held[MOST_PAGES]; // of each page of the other file: a bit for every record that the living one holds too
    uint32_t added, clashes;
    uint64_t lowest;  // of the keys that clash
    uint8_t *entries; // all records by home, end to end up to the end of the living area
};

// All that is refused before any record is looked up: the living file and its row, then the other file.
static uint32_t begin(struct merge *merge, struct reefcushion_slip *slip, uint8_t *area, size_t bytes, size_t counts,
                      const struct reefcushion_slip *other, const uint8_t *other_area, size_t other_bytes) {
    struct reefcushion_slip told;
    uint32_t refusal = baseline_gate(slip, bytes);
    if (!refusal && counts != slip->cap)
        refusal = REEFCUSHION_WRONG_ROW;
    if (refusal) {
        baseline_answer(slip, refusal, 0);
    } else {
        merge->way = baseline_way(slip);
        refusal = baseline_resize_begin(&merge->living, slip, &merge->way, area, slip->pages - 1u);
    }
    if (refusal) {
        slip->file = 1;
        return refusal;
    }
    refusal = baseline_check_next(other, other_area, other_bytes, slip->read, &told);
    baseline_answer(slip, refusal, told.read);
    slip->page = told.page;
    slip->file = refusal ? 2 : 0;
    return refusal;
}

// The slot of the living record with this key, or NULL. The records of a home stand in a row and rise by key, so they
// are halved, and no home but the sought key's own has to be known.
static const uint8_t *seek(const struct merge *merge, uint32_t home, uint64_t key) {
    uint32_t count = merge->living.count[home], place = merge->end[home] - count;
    if (!count)
        return NULL;
    while (count > 1) {
        const uint32_t half = count / 2;
        place += load64(slot_at(&merge->living, place + half) + 4) <= key ? half : 0;
        count -= half;
    }
    const uint8_t *slot = slot_at(&merge->living, place);
    return load64(slot + 4) == key ? slot : NULL;
}

static void note_clash(struct merge *merge, uint64_t key) {
    merge->lowest = !merge->clashes || key < merge->lowest ? key : merge->lowest;
    merge->clashes++;
}

// Looks the other file's records up among the living ones.
static void look(struct merge *merge, const uint8_t *other_area, uint32_t other_cap) {
    struct sight sight;
    baseline_find_ends(&merge->living, merge->end);
    memset(merge->more, 0, sizeof merge->more[0] * merge->living.cap);
    merge->added = merge->clashes = 0;
    for (uint32_t address = 0; address < other_cap; address++) {
        const uint8_t *slot = other_area + page_start(address) + HEAD_BYTES;
        baseline_sight(&merge->way, slot - HEAD_BYTES, &sight);
        merge->held[address] = 0;
        for (uint32_t i = 0; i < sight.used; i++, slot += SLOT_BYTES) {
            const uint8_t *living = seek(merge, sight.home[i], sight.key[i]);
            if (!living) {
                merge->more[sight.home[i]]++;
                merge->added++;
            } else if (load64(living + 12) == load64(slot + 12)) {
                merge->held[address] |= (uint16_t)(1u << i);
            } else {
                note_clash(merge, sight.key[i]);
            }
        }
    }
}

static uint8_t *entry_at(const struct merge *merge, uint32_t i) {
    return merge->entries + SLOT_BYTES * (size_t)i;
}

// Moves the living records to where the entries of their homes begin, and leaves room behind them for those that come.
// No record moves down, so from the last one on none is written over before it has moved: in the image that comes it
// lies no lower than now, and from there on all that its entry begins takes more room, with heads, than as entries.
static void pack_living(struct merge *merge, const uint32_t *row, uint32_t all) {
    const struct resize *living = &merge->living;
    merge->entries = living->area + page_start(living->cap) - SLOT_BYTES * (size_t)all;
    for (uint32_t home = living->last + 1, to = all; home-- > 0;) {
        uint32_t from = merge->end[home], left = living->count[home];
        to -= row[home];
        merge->end[home] = (uint16_t)(to + left);
        while (left) {
            const uint32_t count = lesser(left, 1 + (from - 1) % SLOTS);
            from -= count;
            left -= count;
            memmove(entry_at(merge, to + left), slot_at(living, from), SLOT_BYTES * (size_t)count);
        }
    }
}

// Lays the records that only the other file holds behind the living ones of their homes. Where a page has none of
// them, no home has to be known.
static void add_others(struct merge *merge, const uint8_t *other_area, uint32_t other_cap) {
    struct sight sight;
    for (uint32_t address = 0; address < other_cap; address++) {
        const uint8_t *slot = other_area + page_start(address) + HEAD_BYTES;
        if (merge->held[address] == (1u << used_on(slot - HEAD_BYTES)) - 1)
            continue;
        baseline_sight(&merge->way, slot - HEAD_BYTES, &sight);
        for (uint32_t i = 0; i < sight.used; i++, slot += SLOT_BYTES)
            if (!(merge->held[address] >> i & 1))
                memcpy(entry_at(merge, merge->end[sight.home[i]]++), slot, SLOT_BYTES);
    }
}

// Lays the entries on the pages, from page 0 up. As in packing, none is written over before it is laid.
static void lay_pages(const struct merge *merge, const uint32_t *row) {
    const uint8_t *from = merge->entries;
    for (uint32_t address = 0, end = 0; address < merge->living.cap; address++) {
        uint8_t *page = merge->living.area + page_start(address);
        end = first_place(address, end) + row[address];
        const uint32_t used = lesser(end - SLOTS * address, SLOTS);
        write_head(page, address, used);
        memmove(slot_of(page, 0), from, SLOT_BYTES * (size_t)used);
        from += SLOT_BYTES * (size_t)used;
        for (uint32_t i = used; i < SLOTS; i++)
            write_slot(slot_of(page, i), MARK_EMPTY, 0, 0);
    }
}

// The living area as the image of so many records of both files; the row has how many of each home.
static void lay_anew(struct merge *merge, const uint32_t *row, uint32_t all, const uint8_t *other_area,
                     uint32_t other_cap) {
    pack_living(merge, row, all);
    add_others(merge, other_area, other_cap);
    for (uint32_t home = 0, at = 0; home <= merge->living.last; at += row[home++])
        if (merge->more[home])
            baseline_sort(entry_at(merge, at), row[home]);
    lay_pages(merge, row);
}

// Where nothing is added no page changes, since there is one image.
uint32_t baseline_merge(struct reefcushion_slip *slip, uint8_t *area, size_t bytes,
                        const struct reefcushion_slip *other, const uint8_t *other_area, size_t other_bytes,
                        uint32_t *row, size_t counts) {
    struct merge merge;
    uint32_t refusal = begin(&merge, slip, area, bytes, counts, other, other_area, other_bytes);
    if (refusal)
        return refusal;
    look(&merge, other_area, other->cap);
    if (merge.clashes) {
        baseline_answer(slip, REEFCUSHION_CLASH, slip->read);
        slip->value = merge.lowest;
        return REEFCUSHION_CLASH;
    }
    for (uint32_t home = 0; home < slip->cap; home++)
        row[home] = (uint32_t)merge.living.count[home] + merge.more[home];
    if (!baseline_has_room(&merge.living, row))
        return baseline_answer(slip, REEFCUSHION_NO_ROOM, slip->read);
    slip->records += merge.added;
    if (merge.added)
        lay_anew(&merge, row, slip->records, other_area, other->cap);
    return REEFCUSHION_ACCEPTED;
}
