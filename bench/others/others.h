// What a store offers so that others.c can compare it with the register: whole batches of records, so that each store
// runs its own loop.
#pragma once
#include <stddef.h>
#include <stdint.h>

struct record {
    uint64_t key, value;
};

struct found {
    uint32_t held;  // keys that the store says it holds
    uint32_t right; // those of them whose value is the one sought
};

// Batches are of `count` records. Of puts a store says how many it took: a held key is refused and keeps its value.
struct store {
    const char *name, *way; // the way that it is used in, or NULL where it has one only
    const char *(*version)(void);
    void (*open)(const char *folder);                                  // a new, empty store
    uint32_t (*load)(const struct record *records, uint32_t count);    // as put, in the store's cheapest way
    struct found (*find)(const struct record *sought, uint32_t count); // reads every value that it finds
    uint32_t (*put)(const struct record *records, uint32_t count);
    void (*close)(void); // takes its files away too
    void (*grow)(void);  // one step of growth; NULL where the store grows within its puts
};

extern const struct store register_in_c, register_proved;
extern const struct store lmdb_batch, lmdb_call;
extern const struct store gdbm_plain;
extern const struct store sqlite_memory_batch, sqlite_memory_call, sqlite_file_batch, sqlite_file_call;

// Says what went wrong in which store, and ends the program: a comparison in which a store did other work is worth
// nothing.
_Noreturn void fail(const char *store, const char *what);

static inline void count_found(struct found *found, uint64_t value, uint64_t sought) {
    found->held++;
    found->right += value == sought;
}
