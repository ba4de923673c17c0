// Pay runs to ask for: most are whole and have the right room, some are wrong by little.
#include "agree.h"

enum { SHIFTS = 8 }; // records and replies begin at any byte of a word
static uint8_t records[PUT_BYTES * (MOST_ITEMS + 1) + SHIFTS];

static uint32_t any_count(void) {
    uint32_t n = below(32);
    return n < 4 ? 0 : n < 8 ? 1 : n < 31 ? 2 + below(20) : 100 + below(MOST_ITEMS - 99);
}

// Now and then an earlier record of the run stands again, or its key with another value.
static void lay_record(uint8_t *run, uint32_t i) {
    struct reefcushion_put_record put = any_put();
    if (i && one_in(6)) {
        memcpy(&put, run + PUT_BYTES * below(i), PUT_BYTES);
        put.value = one_in(2) ? put.value : any();
    }
    memcpy(run + PUT_BYTES * i, &put, PUT_BYTES);
}

// A head that is wrong in a bit; one that is, or nearly is, another command's; a record cut short; bytes after the last
// record, which an older run left there.
static size_t damage_run(uint8_t *run, uint32_t count) {
    static const uint8_t lengths[4] = {4, 12, 20, 28};
    uint8_t *head = run + PUT_BYTES * (count ? below(count) : 0);
    const size_t bytes = PUT_BYTES * (size_t)count;
    switch (count ? below(4) : 3) {
    case 0: head[below(4)] ^= (uint8_t)(1 << below(8)); return bytes;
    case 1:
        head[0] = lengths[below(4)];
        head[2] = (uint8_t)below(8);
        return bytes;
    case 2: return bytes - 1 - below(PUT_BYTES - 1);
    default: return bytes + 1 + below(PUT_BYTES - 1);
    }
}

// By a byte or by a reply.
static size_t wrong_room(size_t bytes) {
    size_t by = one_in(2) ? 1 : REPLY_BYTES;
    return bytes && one_in(2) ? bytes - by : bytes + by;
}

// Whatever stands in the room before, on both sides.
static void fill_rooms(void) {
    for (size_t at = 0; at + 8 <= sizeof plain.room; at += 8) {
        uint64_t eight = any();
        memcpy(plain.room + at, &eight, 8);
    }
    memcpy(ours.room, plain.room, sizeof plain.room);
}

void add_run(struct asked *asked) {
    const uint32_t count = any_count();
    uint8_t *run = records + below(SHIFTS);
    for (uint32_t i = 0; i < count; i++)
        lay_record(run, i);
    asked->records = count || one_in(2) ? run : NULL;
    asked->records_bytes = PUT_BYTES * (size_t)count;
    asked->room_bytes = REPLY_BYTES * (size_t)count;
    asked->room_at = below(SHIFTS);
    if (asked->records && one_in(5))
        asked->records_bytes = damage_run(run, count);
    if (one_in(5))
        asked->room_bytes = wrong_room(asked->room_bytes);
    fill_rooms();
}
