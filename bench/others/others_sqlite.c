// SQLite as a store: a table with an integer primary key, prepared statements, no sync, the journal in memory; in
// memory as a whole, and as a file. SQLite's integers are signed: a key goes in and comes out as the same 64 bits.
#include <sqlite3.h>
#include <stdbool.h>
#include <stdio.h>
#include <unistd.h>

#include "others.h"

static sqlite3 *base;
static sqlite3_stmt *select_value, *insert_record;
static char file[4096];

_Noreturn static void fail_here(void) {
    fail("SQLite", base ? sqlite3_errmsg(base) : "no memory");
}

static void run(const char *words) {
    if (sqlite3_exec(base, words, NULL, NULL, NULL) != SQLITE_OK)
        fail_here();
}

static sqlite3_stmt *prepare(const char *words) {
    sqlite3_stmt *statement;
    if (sqlite3_prepare_v3(base, words, -1, SQLITE_PREPARE_PERSISTENT, &statement, NULL) != SQLITE_OK)
        fail_here();
    return statement;
}

// The register locks nothing, so SQLite is spared its locks between threads and its count of memory used. It has to be
// told before its first use.
static void spare_locks(void) {
    static bool spared;
    if (!spared && (sqlite3_config(SQLITE_CONFIG_SINGLETHREAD) != SQLITE_OK ||
                    sqlite3_config(SQLITE_CONFIG_MEMSTATUS, 0) != SQLITE_OK))
        fail("SQLite", "its locks stay");
    spared = true;
}

static void open_named(const char *name) {
    spare_locks();
    if (sqlite3_open(name, &base) != SQLITE_OK)
        fail_here();
    run("PRAGMA synchronous = OFF");
    run("PRAGMA journal_mode = MEMORY");
    run("PRAGMA cache_size = -65536");
    run("CREATE TABLE register (number INTEGER PRIMARY KEY, value INTEGER NOT NULL)");
    select_value = prepare("SELECT value FROM register WHERE number = ?1");
    insert_record = prepare("INSERT INTO register VALUES (?1, ?2)");
}

static void open_in_memory(const char *folder) {
    (void)folder;
    file[0] = 0;
    open_named(":memory:");
}

static void open_as_file(const char *folder) {
    snprintf(file, sizeof file, "%s/sqlite", folder);
    open_named(file);
}

static struct found find_in_calls(const struct record *sought, uint32_t count) {
    struct found found = {0, 0};
    for (uint32_t i = 0; i < count; i++) {
        sqlite3_bind_int64(select_value, 1, (sqlite3_int64)sought[i].key);
        int code = sqlite3_step(select_value);
        if (code == SQLITE_ROW)
            count_found(&found, (uint64_t)sqlite3_column_int64(select_value, 0), sought[i].value);
        else if (code != SQLITE_DONE)
            fail_here();
        sqlite3_reset(select_value);
    }
    return found;
}

static uint32_t put_in_calls(const struct record *records, uint32_t count) {
    uint32_t stored = 0;
    for (uint32_t i = 0; i < count; i++) {
        sqlite3_bind_int64(insert_record, 1, (sqlite3_int64)records[i].key);
        sqlite3_bind_int64(insert_record, 2, (sqlite3_int64)records[i].value);
        int code = sqlite3_step(insert_record);
        if (code == SQLITE_DONE)
            stored++;
        else if ((code & 0xff) != SQLITE_CONSTRAINT)
            fail_here();
        sqlite3_reset(insert_record);
    }
    return stored;
}

static struct found find_in_batch(const struct record *sought, uint32_t count) {
    run("BEGIN");
    struct found found = find_in_calls(sought, count);
    run("COMMIT");
    return found;
}

static uint32_t put_in_batch(const struct record *records, uint32_t count) {
    run("BEGIN IMMEDIATE");
    uint32_t stored = put_in_calls(records, count);
    run("COMMIT");
    return stored;
}

static void close_store(void) {
    sqlite3_finalize(select_value);
    sqlite3_finalize(insert_record);
    if (sqlite3_close(base) != SQLITE_OK)
        fail_here();
    if (file[0])
        unlink(file);
}

const struct store sqlite_memory_batch = {
    "SQLite in memory", "one transaction a batch", sqlite3_libversion, open_in_memory,
    put_in_batch, find_in_batch, put_in_batch, close_store, NULL,
};
const struct store sqlite_memory_call = {
    "SQLite in memory", "one transaction a call", sqlite3_libversion, open_in_memory,
    put_in_batch, find_in_calls, put_in_calls, close_store, NULL,
};
const struct store sqlite_file_batch = {
    "SQLite as a file", "one transaction a batch", sqlite3_libversion, open_as_file,
    put_in_batch, find_in_batch, put_in_batch, close_store, NULL,
};
const struct store sqlite_file_call = {
    "SQLite as a file", "one transaction a call", sqlite3_libversion, open_as_file,
    put_in_batch, find_in_calls, put_in_calls, close_store, NULL,
};
