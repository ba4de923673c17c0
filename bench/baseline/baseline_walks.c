// The walks of the plain register: find, put and remove. Every page looked at is judged before any is written.
#include "baseline_parts.h"

// A walk to a key: the page where it ended (cap where it went past the area), and what it saw there.
struct walk {
    struct way way;
    struct sight sight;
    uint32_t home, page, slot;
};

// The first slot with this key, or SLOTS. An empty slot has key 0, so the caller looks whether it is a record's.
static uint32_t slot_with(const struct sight *sight, uint64_t key) {
    uint32_t found = SLOTS;
    for (uint32_t i = SLOTS; i-- > 0;)
        found = sight->key[i] == key ? i : found;
    return found;
}

// The number of records that stand before a (home, key): its place among them.
static uint32_t place_in(const struct sight *sight, uint32_t home, uint64_t key) {
    uint32_t place = 0;
    for (uint32_t i = 0; i < SLOTS; i++)
        place += (i < sight->used) & before(sight->home[i], sight->key[i], home, key);
    return place;
}

// Gives 0 where the walk, which has its way already, ended at a slot with the key.
static uint32_t walk_to(struct walk *walk, const struct reefcushion_slip *slip, const uint8_t *area, uint64_t key) {
    const struct sight *sight = &walk->sight;
    walk->home = baseline_home(&walk->way, key);
    for (walk->page = walk->home; walk->page < slip->cap; walk->page++) {
        if (!baseline_judge(&walk->way, area, walk->page, &walk->sight))
            return REEFCUSHION_BROKEN;
        walk->slot = slot_with(sight, key);
        if (walk->slot < sight->used)
            return REEFCUSHION_ACCEPTED;
        if (sight->used < SLOTS || before(walk->home, key, sight->home[SLOTS - 1], sight->key[SLOTS - 1]))
            break;
    }
    return REEFCUSHION_ABSENT;
}

static uint64_t value_at(const struct walk *walk, const uint8_t *area) {
    return load64(area + page_start(walk->page) + HEAD_BYTES + SLOT_BYTES * walk->slot + 12);
}

// Answers with what a walk came to.
static uint32_t answer(struct reefcushion_slip *slip, const struct walk *walk, uint32_t refusal) {
    uint32_t read = walk->page - walk->home + (walk->page < slip->cap);
    if (refusal == REEFCUSHION_BROKEN)
        return baseline_broken(slip, walk->page, read);
    return baseline_answer(slip, refusal, read);
}

// What find and remove begin with: the gate, and the walk behind it, answered.
static uint32_t arrive(struct walk *walk, struct reefcushion_slip *slip, const uint8_t *area, size_t bytes,
                       uint64_t key) {
    uint32_t refusal = baseline_gate(slip, bytes);
    if (refusal)
        return baseline_answer(slip, refusal, 0);
    walk->way = baseline_way(slip);
    return answer(slip, walk, walk_to(walk, slip, area, key));
}

uint32_t baseline_find(struct reefcushion_slip *slip, const uint8_t *area, size_t bytes, uint64_t key) {
    struct walk walk;
    uint32_t refusal = arrive(&walk, slip, area, bytes, key);
    if (refusal == REEFCUSHION_ACCEPTED)
        slip->value = value_at(&walk, area);
    return refusal;
}

// The pages that a put or a remove writes: from `first` to `last`, with the slot where a record comes in on each.
struct chain {
    uint32_t first, last;
    uint8_t place[MOST_PAGES];
};

// Judges the pages that a new record pushes records on to, up to the first that isn't full, and leaves the walk at the
// last page looked at.
static uint32_t judge_push(struct walk *walk, struct chain *chain, const struct reefcushion_slip *slip,
                           const uint8_t *area, uint64_t key) {
    struct sight *sight = &walk->sight;
    uint32_t home = walk->home;
    chain->first = chain->last = walk->page;
    while (walk->page < slip->cap) {
        uint32_t place = place_in(sight, home, key);
        chain->place[walk->page - chain->first] = (uint8_t)place;
        chain->last = walk->page;
        if (sight->used < SLOTS)
            return REEFCUSHION_ACCEPTED;
        if (place < SLOTS) {
            home = sight->home[SLOTS - 1];
            key = sight->key[SLOTS - 1];
        }
        walk->page++;
        if (walk->page < slip->cap && !baseline_judge(&walk->way, area, walk->page, sight))
            return REEFCUSHION_BROKEN;
    }
    return REEFCUSHION_NO_ROOM;
}

// Each page takes the record that comes and gives its last one on; where the place is past all slots, the record goes
// on itself.
static void push(const struct chain *chain, uint8_t *area, uint64_t key, uint64_t value) {
    uint8_t coming[SLOT_BYTES], going[SLOT_BYTES];
    write_slot(coming, MARK_RECORD, key, value);
    for (uint32_t address = chain->first; address <= chain->last; address++) {
        uint8_t *page = area + page_start(address);
        uint32_t place = chain->place[address - chain->first], used = used_on(page);
        if (place == SLOTS)
            continue;
        memcpy(going, slot_of(page, SLOTS - 1), SLOT_BYTES);
        memmove(slot_of(page, place + 1), slot_of(page, place),
                SLOT_BYTES * (size_t)((used < SLOTS ? used : SLOTS - 1) - place));
        memcpy(slot_of(page, place), coming, SLOT_BYTES);
        memcpy(coming, going, SLOT_BYTES);
        if (used < SLOTS)
            set_used(page, used + 1);
    }
}

uint32_t baseline_put_by(const struct way *way, struct reefcushion_slip *slip, uint8_t *area, uint64_t key,
                         uint64_t value) {
    struct walk walk;
    struct chain chain;
    walk.way = *way;
    uint32_t refusal = answer(slip, &walk, walk_to(&walk, slip, area, key));
    if (refusal == REEFCUSHION_ACCEPTED) {
        uint64_t held = value_at(&walk, area);
        refusal = answer(slip, &walk, held == value ? REEFCUSHION_HELD : REEFCUSHION_CLASH);
        slip->value = held;
        return refusal;
    }
    if (refusal != REEFCUSHION_ABSENT)
        return refusal;
    refusal = judge_push(&walk, &chain, slip, area, key);
    if (refusal == REEFCUSHION_ACCEPTED && slip->records == SLOTS * (uint32_t)slip->cap)
        refusal = REEFCUSHION_NOT_IMAGE;
    if (answer(slip, &walk, refusal))
        return refusal;
    push(&chain, area, key, value);
    slip->moved = chain.last - chain.first;
    slip->records++;
    return REEFCUSHION_ACCEPTED;
}

uint32_t baseline_put(struct reefcushion_slip *slip, uint8_t *area, size_t bytes, uint64_t key, uint64_t value) {
    uint32_t refusal = baseline_gate(slip, bytes);
    if (refusal)
        return baseline_answer(slip, refusal, 0);
    struct way way = baseline_way(slip);
    return baseline_put_by(&way, slip, area, key, value);
}

// Judges the pages that records come back from after a removal, and leaves the walk at the last page looked at.
static uint32_t judge_pull(struct walk *walk, struct chain *chain, const struct reefcushion_slip *slip,
                           const uint8_t *area) {
    struct sight next;
    uint32_t gone = walk->slot;
    chain->first = chain->last = walk->page;
    while (walk->sight.used == SLOTS && chain->last + 1 < slip->cap) {
        walk->page = chain->last + 1;
        if (!baseline_judge(&walk->way, area, walk->page, &next))
            return REEFCUSHION_BROKEN;
        if (next.used == 0 || next.home[0] > chain->last)
            return REEFCUSHION_ACCEPTED;
        const struct sight *sight = &walk->sight;
        bool gone_before = before(sight->home[gone], sight->key[gone], next.home[0], next.key[0]);
        chain->place[chain->last - chain->first] = (uint8_t)(place_in(sight, next.home[0], next.key[0]) - gone_before);
        walk->sight = next;
        gone = 0;
        chain->last++;
    }
    return REEFCUSHION_ACCEPTED;
}

// Moves the records between a slot that is free and the slot that has to be.
static void shift(uint8_t *page, uint32_t from_free, uint32_t to_free) {
    if (from_free < to_free)
        memmove(slot_of(page, from_free), slot_of(page, from_free + 1), SLOT_BYTES * (size_t)(to_free - from_free));
    else
        memmove(slot_of(page, to_free + 1), slot_of(page, to_free), SLOT_BYTES * (size_t)(from_free - to_free));
}

// Each page loses a record and takes the first of the next one, up to the last page, which has one less.
static void pull(const struct chain *chain, uint8_t *area, uint32_t gone) {
    uint8_t *page = area + page_start(chain->first);
    for (uint32_t address = chain->first; address < chain->last; address++, page += PAGE_BYTES) {
        uint32_t place = chain->place[address - chain->first];
        shift(page, gone, place);
        memcpy(slot_of(page, place), slot_of(page + PAGE_BYTES, 0), SLOT_BYTES);
        gone = 0;
    }
    uint32_t used = used_on(page);
    shift(page, gone, used - 1);
    write_slot(slot_of(page, used - 1), MARK_EMPTY, 0, 0);
    set_used(page, used - 1);
}

uint32_t baseline_remove(struct reefcushion_slip *slip, uint8_t *area, size_t bytes, uint64_t key) {
    struct walk walk;
    struct chain chain;
    uint32_t refusal = arrive(&walk, slip, area, bytes, key);
    if (refusal)
        return refusal;
    uint32_t gone = walk.slot;
    refusal = judge_pull(&walk, &chain, slip, area);
    if (refusal == REEFCUSHION_ACCEPTED && slip->records == 0)
        refusal = REEFCUSHION_NOT_IMAGE;
    if (answer(slip, &walk, refusal))
        return refusal;
    pull(&chain, area, gone);
    slip->moved = chain.last - chain.first;
    slip->records--;
    return REEFCUSHION_ACCEPTED;
}
