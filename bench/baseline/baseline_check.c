// The page rules, and check of the plain register.
#include "baseline_parts.h"

// Every slot is looked at, full or empty, so that nothing has to be guessed about their number.
static bool slots_hold(const uint8_t *page, uint32_t used, uint64_t key[SLOTS]) {
    uint64_t wrong = 0;
    for (uint32_t i = 0; i < SLOTS; i++) {
        const uint8_t *slot = page + HEAD_BYTES + SLOT_BYTES * i;
        bool record = i < used;
        key[i] = load64(slot + 4);
        wrong |= load32(slot) ^ (record ? MARK_RECORD : MARK_EMPTY);
        wrong |= record ? 0 : key[i] | load64(slot + 12);
    }
    return !wrong;
}

static bool rises(const struct sight *sight) {
    bool wrong = false;
    for (uint32_t i = 1; i < SLOTS; i++)
        wrong |= (i < sight->used) & !before(sight->home[i - 1], sight->key[i - 1], sight->home[i], sight->key[i]);
    return !wrong;
}

// Homes rise, so the last one alone has to be at most the address.
bool baseline_judge(const struct way *way, const uint8_t *area, uint32_t address, struct sight *sight) {
    const uint8_t *page = area + page_start(address);
    sight->used = used_on(page);
    if (load64(page) != head_of(address) || load64(page + 8) > SLOTS || !slots_hold(page, sight->used, sight->key))
        return false;
    if (sight->used == 0) {
        memset(sight->home, 0, sizeof sight->home);
        return true;
    }
    baseline_homes(way, sight);
    return sight->home[sight->used - 1] <= address && rises(sight);
}

// A file as it is looked at from page 0 upward.
struct survey {
    uint32_t records;
    bool image;   // so far every record lies where an image has it
    uint32_t run; // every page from here to the one before this is full
    uint32_t last_home;
    uint64_t last_key;
};

// One page more. After a page that isn't full all records have their home here, so they stand after all before them.
static void survey_page(struct survey *survey, const struct sight *sight, uint32_t address) {
    if (sight->used) {
        bool rising =
            survey->run == address || before(survey->last_home, survey->last_key, sight->home[0], sight->key[0]);
        survey->image &= (sight->home[0] >= survey->run) & rising;
    }
    survey->records += sight->used;
    if (sight->used < SLOTS) {
        survey->run = address + 1;
        return;
    }
    survey->last_home = sight->home[SLOTS - 1];
    survey->last_key = sight->key[SLOTS - 1];
}

// Homes rise, so where the first is the page itself all are.
static void count_homes(uint16_t count[], const struct sight *sight, uint32_t address) {
    if (sight->used && sight->home[0] == address) {
        count[address] += sight->used;
        return;
    }
    for (uint32_t i = 0; i < sight->used; i++)
        count[sight->home[i]]++;
}

uint32_t baseline_survey(struct reefcushion_slip *slip, const struct way *way, const uint8_t *area, uint16_t *count) {
    struct sight sight;
    struct survey survey = {.image = true};
    for (uint32_t address = 0; address < slip->cap; address++) {
        if (!baseline_judge(way, area, address, &sight))
            return baseline_broken(slip, address, address + 1);
        survey_page(&survey, &sight, address);
        if (count)
            count_homes(count, &sight, address);
    }
    bool image = survey.image && survey.records == slip->records;
    return baseline_answer(slip, image ? REEFCUSHION_ACCEPTED : REEFCUSHION_NOT_IMAGE, slip->cap);
}

uint32_t baseline_check(struct reefcushion_slip *slip, const uint8_t *area, size_t bytes) {
    uint32_t refusal = baseline_gate(slip, bytes);
    if (refusal)
        return baseline_answer(slip, refusal, 0);
    struct way way = baseline_way(slip);
    return baseline_survey(slip, &way, area, NULL);
}

uint32_t baseline_check_next(const struct reefcushion_slip *slip, const uint8_t *area, size_t bytes, uint32_t read,
                             struct reefcushion_slip *told) {
    *told = *slip;
    const uint32_t refusal = baseline_check(told, area, bytes);
    told->read += told->read ? read : 0;
    return refusal;
}
