// The register as a store: written in C, and the proved library where the machine can run it.
#include <stdlib.h>

#include "../baseline/baseline.h"
#include "../common/empty.h"
#include "../common/page.h"
#include "others.h"

// 4,096 pages are lent, the most there can be. The file is grown to all but the last eight, which are left for
// overflow: without them a run of full pages at the end of the area would refuse a key long before the file is full.
enum { PAGES = 4088, CAP = MOST_PAGES, AREA_BYTES = PAGE_BYTES * CAP };

static struct reefcushion_slip slip;
static uint8_t *area;
static uint32_t row[CAP];
static const struct store *store;

#if WITH_PROVED
#define EITHER(proved, plain) (store == &register_proved ? (proved) : (plain))
#else
#define EITHER(proved, plain) (plain)
#endif
#define SLIP &slip, sizeof slip
#define AREA area, AREA_BYTES

static uint32_t find_key(uint64_t key) {
    return EITHER(reefcushion_find(SLIP, AREA, key), baseline_find(&slip, AREA, key));
}

static uint32_t put_record(struct record record) {
    return EITHER(reefcushion_put(SLIP, AREA, record.key, record.value),
                  baseline_put(&slip, AREA, record.key, record.value));
}

static const char *version(void) {
    return "this repository";
}

static void open_store(const struct store *which) {
    store = which;
    area = malloc(AREA_BYTES);
    if (!area || empty_file(&slip, area, 1, PAGES, CAP) != 0)
        fail(store->name, "no empty file");
}

static void open_in_c(const char *folder) {
    (void)folder;
    open_store(&register_in_c);
}

static struct found find(const struct record *sought, uint32_t count) {
    struct found found = {0, 0};
    for (uint32_t i = 0; i < count; i++) {
        uint32_t refusal = find_key(sought[i].key);
        if (refusal == REEFCUSHION_ACCEPTED)
            count_found(&found, slip.value, sought[i].value);
        else if (refusal != REEFCUSHION_ABSENT)
            fail(store->name, "a find was refused");
    }
    return found;
}

static uint32_t put(const struct record *records, uint32_t count) {
    uint32_t stored = 0;
    for (uint32_t i = 0; i < count; i++) {
        uint32_t refusal = put_record(records[i]);
        if (refusal == REEFCUSHION_ACCEPTED)
            stored++;
        else if (refusal != REEFCUSHION_CLASH) // a key is offered again with another value only
            fail(store->name, "a put was refused");
    }
    return stored;
}

static void grow(void) {
    if (EITHER(reefcushion_grow(SLIP, AREA, row, CAP), baseline_grow(&slip, AREA, row, CAP)) != 0)
        fail(store->name, "a growth was refused");
}

static void close_store(void) {
    if (EITHER(reefcushion_check(SLIP, AREA), baseline_check(&slip, AREA)) != 0)
        fail(store->name, "the file isn't the image of its records");
    free(area);
}

const struct store register_in_c = {"the register in C", NULL, version, open_in_c, put, find, put, close_store, grow};

#if WITH_PROVED
static void open_proved(const char *folder) {
    (void)folder;
    open_store(&register_proved);
}

const struct store register_proved = {
    "the proved register", NULL, version, open_proved, put, find, put, close_store, grow,
};
#endif
