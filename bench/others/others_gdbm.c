// GDBM as a store: a hash file without a sync (GDBM_FAST) and without transactions, with room in its cache for all of
// its buckets.
#include <gdbm.h>
#include <stdio.h>
#include <stdlib.h>
#include <string.h>
#include <unistd.h>

#include "others.h"

static GDBM_FILE store;
static char file[4096];

_Noreturn static void fail_here(void) {
    fail("GDBM", gdbm_strerror(gdbm_errno));
}

static const char *version(void) {
    static char text[32];
    snprintf(text, sizeof text, "%d.%d.%d", gdbm_version_number[0], gdbm_version_number[1], gdbm_version_number[2]);
    return text;
}

static void open_store(const char *folder) {
    snprintf(file, sizeof file, "%s/gdbm", folder);
    store = gdbm_open(file, 0, GDBM_NEWDB | GDBM_FAST, 0600, NULL);
    if (!store)
        fail_here();
    size_t buckets = 4096;
    if (gdbm_setopt(store, GDBM_SETCACHESIZE, &buckets, sizeof buckets) != 0)
        fail_here();
}

static struct found find(const struct record *sought, uint32_t count) {
    struct found found = {0, 0};
    for (uint32_t i = 0; i < count; i++) {
        datum key = {(char *)&sought[i].key, sizeof sought[i].key};
        datum held = gdbm_fetch(store, key);
        if (held.dptr) {
            uint64_t value;
            memcpy(&value, held.dptr, sizeof value);
            free(held.dptr);
            count_found(&found, value, sought[i].value);
        } else if (gdbm_errno != GDBM_ITEM_NOT_FOUND)
            fail_here();
    }
    return found;
}

static uint32_t put(const struct record *records, uint32_t count) {
    uint32_t stored = 0;
    for (uint32_t i = 0; i < count; i++) {
        datum key = {(char *)&records[i].key, sizeof records[i].key},
              value = {(char *)&records[i].value, sizeof records[i].value};
        int code = gdbm_store(store, key, value, GDBM_INSERT);
        if (code == 0)
            stored++;
        else if (code < 0)
            fail_here();
    }
    return stored;
}

static void close_store(void) {
    gdbm_close(store);
    unlink(file);
}

const struct store gdbm_plain = {"GDBM", NULL, version, open_store, put, find, put, close_store, NULL};
