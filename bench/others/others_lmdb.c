// LMDB as a store: a map of integer keys, without a sync. The map is writable (MDB_WRITEMAP), which is its quickest way
// when the file fits in memory.
#include <lmdb.h>
#include <stdio.h>
#include <string.h>
#include <unistd.h>

#include "others.h"

enum { MAP_BYTES = 64 << 20 };

static MDB_env *env;
static MDB_dbi table;
static char file[4096];

static void must(int code) {
    if (code != 0)
        fail("LMDB", mdb_strerror(code));
}

static const char *version(void) {
    static char text[32];
    int major, minor, patch;
    mdb_version(&major, &minor, &patch);
    snprintf(text, sizeof text, "%d.%d.%d", major, minor, patch);
    return text;
}

static MDB_txn *begin(unsigned flags) {
    MDB_txn *txn;
    must(mdb_txn_begin(env, NULL, flags, &txn));
    return txn;
}

static void open_store(const char *folder) {
    snprintf(file, sizeof file, "%s/lmdb", folder);
    must(mdb_env_create(&env));
    must(mdb_env_set_mapsize(env, MAP_BYTES));
    must(mdb_env_open(env, file, MDB_NOSUBDIR | MDB_NOSYNC | MDB_WRITEMAP, 0600));
    MDB_txn *txn = begin(0);
    must(mdb_dbi_open(txn, NULL, MDB_INTEGERKEY, &table));
    must(mdb_txn_commit(txn));
}

static void find_one(MDB_txn *txn, const struct record *sought, struct found *found) {
    MDB_val key = {sizeof sought->key, (void *)&sought->key}, held;
    int code = mdb_get(txn, table, &key, &held);
    if (code == MDB_NOTFOUND)
        return;
    must(code);
    uint64_t value;
    memcpy(&value, held.mv_data, sizeof value);
    count_found(found, value, sought->value);
}

static uint32_t put_one(MDB_txn *txn, const struct record *record) {
    MDB_val key = {sizeof record->key, (void *)&record->key}, value = {sizeof record->value, (void *)&record->value};
    int code = mdb_put(txn, table, &key, &value, MDB_NOOVERWRITE);
    if (code == MDB_KEYEXIST)
        return 0;
    must(code);
    return 1;
}

static struct found find_in_batch(const struct record *sought, uint32_t count) {
    struct found found = {0, 0};
    MDB_txn *txn = begin(MDB_RDONLY);
    for (uint32_t i = 0; i < count; i++)
        find_one(txn, &sought[i], &found);
    mdb_txn_abort(txn);
    return found;
}

// One read transaction a find: reset and renewed, which is how LMDB would have it done.
static struct found find_in_calls(const struct record *sought, uint32_t count) {
    struct found found = {0, 0};
    MDB_txn *txn = begin(MDB_RDONLY);
    for (uint32_t i = 0; i < count; i++) {
        mdb_txn_reset(txn);
        must(mdb_txn_renew(txn));
        find_one(txn, &sought[i], &found);
    }
    mdb_txn_abort(txn);
    return found;
}

static uint32_t put_in_batch(const struct record *records, uint32_t count) {
    uint32_t stored = 0;
    MDB_txn *txn = begin(0);
    for (uint32_t i = 0; i < count; i++)
        stored += put_one(txn, &records[i]);
    must(mdb_txn_commit(txn));
    return stored;
}

static uint32_t put_in_calls(const struct record *records, uint32_t count) {
    uint32_t stored = 0;
    for (uint32_t i = 0; i < count; i++)
        stored += put_in_batch(&records[i], 1);
    return stored;
}

static void close_store(void) {
    char lock[sizeof file + 8];
    snprintf(lock, sizeof lock, "%s-lock", file);
    mdb_env_close(env);
    unlink(file);
    unlink(lock);
}

const struct store lmdb_batch = {
    "LMDB", "one transaction a batch", version, open_store, put_in_batch, find_in_batch, put_in_batch, close_store, NULL,
};
const struct store lmdb_call = {
    "LMDB", "one transaction a call", version, open_store, put_in_batch, find_in_calls, put_in_calls, close_store, NULL,
};
