// The register beside what a team would take instead: LMDB, GDBM and SQLite, each with the same keys and values of 64
// bits and without a sync. others [ROUNDS [FOLDER]] prints a table in Markdown and what has to be known to read it;
// files are made in FOLDER, or else on the machine's tmpfs, and taken away again.
//
// In each round every store in turn is made anew, loaded and timed in its works, so that a slow moment of the machine
// meets all of them alike; of each work the best round counts.
#include <dirent.h>
#include <stdio.h>
#include <stdlib.h>
#include <string.h>
#include <time.h>
#include <unistd.h>

#include "../common/grouped.h"
#include "../common/random.h"
#include "others.h"

// 39,244 records are four fifths of the slots of 4,088 pages of twelve. The fresh ones are a large pay run; they raise
// the load to 0.82.
enum { HELD = 39244, FRESH = 1000 };
enum { FIND_HELD, FIND_ABSENT, PUT, GROW, WORKS };
static const double calls_of[] = {HELD, HELD, FRESH, 1};

static struct record held[HELD], absent[HELD], fresh[FRESH], shuffled[HELD], offered_again[FRESH];

// A store without functions wasn't there when this was built.
static const struct store *const stores[] = {
    &register_in_c,
#if WITH_PROVED
    &register_proved,
#else
    &(const struct store){.name = "the proved register", .way = "left out: for x86-64 only"},
#endif
#if WITH_LMDB
    &lmdb_batch, &lmdb_call,
#else
    &(const struct store){.name = "LMDB"},
#endif
#if WITH_GDBM
    &gdbm_plain,
#else
    &(const struct store){.name = "GDBM"},
#endif
#if WITH_SQLITE
    &sqlite_memory_batch, &sqlite_memory_call, &sqlite_file_batch, &sqlite_file_call,
#else
    &(const struct store){.name = "SQLite"},
#endif
};
enum { STORES = sizeof stores / sizeof stores[0] };

static double best[STORES][WORKS]; // seconds of the best round, 0 before the first
static char folder[4000];

_Noreturn void fail(const char *store, const char *what) {
    fprintf(stderr, "others: %s: %s\n", store, what);
    exit(1);
}

static void clear_folder(void) {
    DIR *list = opendir(folder);
    if (!list)
        return;
    for (struct dirent *entry; (entry = readdir(list));)
        unlinkat(dirfd(list), entry->d_name, 0);
    closedir(list);
    rmdir(folder);
}

static void make_folder(const char *parent) {
    snprintf(folder, sizeof folder, "%s/others.XXXXXX", parent);
    if (!mkdtemp(folder))
        fail(parent, "no folder can be made there");
    atexit(clear_folder);
}

// No number comes twice, so all keys differ.
static uint64_t next_random(void) {
    static uint64_t place;
    return random_at(1985, place++);
}

static void draw(struct record *records, uint32_t count) {
    for (uint32_t i = 0; i < count; i++) {
        records[i].key = next_random();
        records[i].value = next_random();
    }
}

static void shuffle(void) {
    for (uint32_t i = 0; i < HELD; i++) {
        uint32_t j = next_random() % (i + 1);
        shuffled[i] = shuffled[j];
        shuffled[j] = held[i];
    }
}

static void draw_records(void) {
    draw(held, HELD);
    draw(absent, HELD);
    draw(fresh, FRESH);
    shuffle();
    for (uint32_t i = 0; i < FRESH; i++)
        offered_again[i] = (struct record){held[i].key, ~held[i].value};
}

static void must_find(const struct store *store, struct found found, uint32_t count) {
    if (found.held != count || found.right != count)
        fail(store->name, "a find gave another answer than it should");
}

static void must_store(const struct store *store, uint32_t stored, uint32_t count) {
    if (stored != count)
        fail(store->name, "a put gave another answer than it should");
}

// Loaded run by run, so that a store that writes its pages anew and takes old ones up again is timed with old ones to
// take.
static void load_runs(const struct store *store) {
    for (uint32_t i = 0; i < HELD; i += FRESH) {
        uint32_t count = HELD - i < FRESH ? HELD - i : FRESH;
        must_store(store, store->load(held + i, count), count);
    }
}

// Untimed: a held key has to be refused and keep its value. Finding all of them also brings every store's pages into
// the caches.
static void load(const struct store *store) {
    load_runs(store);
    must_store(store, store->load(offered_again, FRESH), 0);
    must_find(store, store->find(held, HELD), HELD);
}

// The processor's time for this process, its system calls included: other programs on the machine don't count, and
// nothing here waits for a disk.
static double worked(void) {
    struct timespec now;
    clock_gettime(CLOCK_PROCESS_CPUTIME_ID, &now);
    return (double)now.tv_sec + (double)now.tv_nsec / 1e9;
}

static void keep_best(int at, int work, double began) {
    double took = worked() - began;
    if (best[at][work] == 0 || took < best[at][work])
        best[at][work] = took;
}

static void time_finds(int at, int work, const struct record *sought, uint32_t expected) {
    double began = worked();
    struct found found = stores[at]->find(sought, HELD);
    keep_best(at, work, began);
    must_find(stores[at], found, expected);
}

static void time_puts(int at) {
    double began = worked();
    uint32_t stored = stores[at]->put(fresh, FRESH);
    keep_best(at, PUT, began);
    must_store(stores[at], stored, FRESH);
    must_find(stores[at], stores[at]->find(fresh, FRESH), FRESH);
}

static void time_growth(int at) {
    double began = worked();
    stores[at]->grow();
    keep_best(at, GROW, began);
}

static void round_of(int at) {
    stores[at]->open(folder);
    load(stores[at]);
    time_finds(at, FIND_HELD, shuffled, HELD);
    time_finds(at, FIND_ABSENT, absent, 0);
    time_puts(at);
    if (stores[at]->grow)
        time_growth(at);
    stores[at]->close();
}

static double thousands_a_second(int at, int work) {
    return calls_of[work] / best[at][work] / 1000;
}

static void print_row(int at) {
    const struct store *store = stores[at];
    if (!store->open) {
        printf("| %s | %s | | | | | | |\n", store->name,
               store->way ? store->way : "left out: not found on the machine");
        return;
    }
    printf("| %s%s%s | %s |", store->name, store->way ? ", " : "", store->way ? store->way : "", store->version());
    for (int work = FIND_HELD; work <= PUT; work++)
        printf(" %s | %.2f |", grouped(thousands_a_second(at, work)), best[0][work] / best[at][work]);
    putchar('\n');
}

static void print_head(int rounds) {
    puts("## Beside other stores\n");
    puts("LMDB, GDBM and SQLite are what a team would take instead of this register. Each is used from C, in one "
         "thread, set up for speed and without a sync. \"The register in C\" is the plain one of the tables above, "
         "compiled for this machine; \"the proved register\" is the proved library.\n");
    printf("%s records with random keys and values of 64 bits are held, four fifths of what the register's pages have "
           "room for. Then all of them and as many absent keys are sought in random order, and %s fresh records are "
           "put. The figures are thousands of calls a second, the best of %d rounds, in each of which every store has "
           "its turn; time is the processor's, system calls included. Behind each figure stands its ratio to the first "
           "row: below 1 is slower than the register in C.\n\n",
           grouped(HELD), grouped(FRESH), rounds);
}

static void print_table(void) {
    puts(
        "| store | version | finds of held keys | ratio | finds of absent keys | ratio | puts of fresh keys | ratio |");
    puts("|---|---|--:|--:|--:|--:|--:|--:|");
    for (int at = 0; at < STORES; at++)
        print_row(at);
}

// The register's puts leave growth to the caller, so the table alone would flatter it. It is due about once in ten
// puts.
static double puts_with_growth(int at) {
    return 10 / (10 * best[at][PUT] / FRESH + best[at][GROW]);
}

static void print_growths(void) {
    printf("\nPuts are timed in a file that has grown already. The others grow within their puts. The register grows "
           "only when told, about once in ten puts, and looks at every page each time.");
    for (int at = 0; at < STORES; at++)
        if (stores[at]->grow)
            printf(" With %s one growth of this file takes %.1f ms: grown with every tenth put, it makes %s puts a "
                   "second.",
                   stores[at]->name, best[at][GROW] * 1e3, grouped(puts_with_growth(at)));
    puts("\n");
}

static void print_differences(void) {
    puts("What the others do and the register doesn't: LMDB and SQLite have transactions, so that several changes hold "
         "together or not at all. All three bring changes to disk when asked (LMDB and SQLite so that a crash leaves "
         "whole transactions), which is switched off here; the register knows lent memory only. They let several "
         "processes read at once, and in LMDB readers go on while one writes (in SQLite too, with its write-ahead "
         "log); the register leaves that to its caller. They take keys and values of many sizes and grow by themselves "
         "as far as the disk goes (LMDB as far as the size it was opened with); the register has 64 bits for each, and "
         "at most 4,096 pages.\n");
    puts("What the register does and the others don't: every page that a find or a put looks at is judged in full, "
         "each slot and each record's home, before anything on it is believed, and a broken one is refused by its "
         "address; that work is in its figures. And there is one image: the same records at two sites are the same "
         "bytes, in whatever order they came, where the others' files depend on their past.\n");
    puts("What tilts it: random keys suit hashing; numbers that run upward would help the trees of LMDB and SQLite. "
         "The register and SQLite in memory lose everything when the process ends and make hardly any system calls, "
         "while LMDB, GDBM and SQLite as a file leave a file behind. SQLite as a file locks it against other processes "
         "in each transaction, which is most of what its one transaction a call costs.");
}

// The rows of a store stand together; of its ways the quickest counts.
static double most_finds(int at) {
    double most = 0;
    for (int row = at; row < STORES && strcmp(stores[row]->name, stores[at]->name) == 0; row++)
        if (thousands_a_second(row, FIND_HELD) > most)
            most = thousands_a_second(row, FIND_HELD);
    return most;
}

static void print_in_short(void) {
    printf("\nIn short: beside other stores, in one thread and with nothing synced, finds of held keys in thousands a "
           "second:");
    const char *between = " ";
    for (int at = 0; at < STORES; at++) {
        if (!stores[at]->open || (at && strcmp(stores[at]->name, stores[at - 1]->name) == 0))
            continue;
        printf("%s%s %s", between, stores[at]->name, grouped(most_finds(at)));
        between = "; ";
    }
    printf(".\n\nIn short: grown with every tenth put, as it has to be, that file takes so many puts a second:");
    between = " ";
    for (int at = 0; at < STORES; at++)
        if (stores[at]->grow) {
            printf("%s%s %s", between, stores[at]->name, grouped(puts_with_growth(at)));
            between = "; ";
        }
    puts(".");
}

int main(int count, char **words) {
    const int rounds = count > 1 ? atoi(words[1]) : 7;
    if (rounds < 1)
        fail("rounds", "there has to be one");
    make_folder(count > 2 ? words[2] : "/dev/shm");
    draw_records();
    for (int round = 0; round < rounds; round++)
        for (int at = 0; at < STORES; at++)
            if (stores[at]->open)
                round_of(at);
    print_head(rounds);
    print_table();
    print_growths();
    print_differences();
    print_in_short();
}
