// A pay run of the plain register: its puts one by one, with a reply for each.
#include "../common/run.h"
#include "baseline_parts.h"

enum { REPLY_KIND = 513 };

// Length and kind are read as one number. All heads are looked at, so that nothing has to be guessed about any.
static bool are_puts(const uint8_t *records, size_t bytes) {
    const uint32_t head = REEFCUSHION_PUT_LENGTH | (uint32_t)REEFCUSHION_PUT_KIND << 16;
    const size_t count = bytes / PUT_BYTES;
    uint32_t wrong = 0;
    for (size_t i = 0; i < count; i++)
        wrong |= load32(records + PUT_BYTES * i) ^ head;
    return !wrong && bytes == PUT_BYTES * count;
}

// The answer in the slip as a reply.
static void write_reply(const struct reefcushion_slip *slip, bool due, uint8_t *to) {
    const struct reefcushion_reply reply = {.length = REPLY_BYTES,
                                            .kind = REPLY_KIND,
                                            .refusal = slip->refusal,
                                            .page = slip->page,
                                            .value = slip->value,
                                            .read = slip->read,
                                            .moved = slip->moved,
                                            .pages = slip->pages,
                                            .due = due};
    memcpy(to, &reply, REPLY_BYTES);
}

// A put changes no number of the state but r, and that never out of range. So what the gate says and the way to homes
// are the same for all puts, and worked out once. Records and replies may lie at any byte, so they are copied.
static void put_each(struct reefcushion_slip *slip, uint8_t *area, size_t bytes, const uint8_t *records, size_t count,
                     uint8_t *replies) {
    const uint32_t gate = baseline_gate(slip, bytes);
    const struct way way = gate ? (struct way){0} : baseline_way(slip);
    for (size_t i = 0; i < count; i++) {
        struct reefcushion_put_record record;
        memcpy(&record, records + PUT_BYTES * i, PUT_BYTES);
        if (gate)
            baseline_answer(slip, gate, 0);
        else
            baseline_put_by(&way, slip, area, record.key, record.value);
        write_reply(slip, gate != REEFCUSHION_OUT_OF_RANGE && past_load(slip), replies + REPLY_BYTES * i);
    }
}

// No run is so long that the bytes of its replies can't be counted.
uint32_t baseline_put_run(struct reefcushion_slip *slip, uint8_t *area, size_t bytes, const uint8_t *records,
                          size_t records_bytes, uint8_t *replies, size_t replies_bytes) {
    const size_t count = records_bytes / PUT_BYTES;
    if (!are_puts(records, records_bytes))
        return baseline_answer(slip, REEFCUSHION_NOT_PUTS, 0);
    if (replies_bytes != REPLY_BYTES * count)
        return baseline_answer(slip, REEFCUSHION_WRONG_ROOM, 0);
    put_each(slip, area, bytes, records, count, replies);
    return baseline_answer(slip, REEFCUSHION_ACCEPTED, 0);
}
