// The files that are measured: equal copies for all sides, and keys to ask for.
#include <stdio.h>
#include <stdlib.h>

#include "../common/empty.h"
#include "../common/random.h"
#include "speed.h"

void stop(const char *why) {
    fprintf(stderr, "speed: %s\n", why);
    exit(1);
}

struct file new_file(uint32_t cap) {
    struct file file = {.bytes = page_start(cap), .area = calloc(cap, PAGE_BYTES)};
    if (!file.area)
        stop("no memory");
    return file;
}

void copy_file(struct file *to, const struct file *from) {
    to->slip = from->slip;
    memcpy(to->area, from->area, from->bytes);
}

void restore(struct files *files) {
    for (int side = 0; side < SIDES; side++)
        copy_file(&files->of[side], &files->first);
}

// The state and the pages; the last answer may be another.
bool same_file(const struct file *left, const struct file *right) {
    return !memcmp(&left->slip, &right->slip, offsetof(struct reefcushion_slip, value)) &&
           !memcmp(left->area, right->area, left->bytes);
}

void require_same_slips(const struct files *files) {
    for (int side = C; side < SIDES; side++)
        if (memcmp(&files->of[OURS].slip, &files->of[side].slip, sizeof files->first.slip))
            stop("two sides gave different answers");
}

void require_same_files(const struct files *files) {
    for (int side = C; side < SIDES; side++)
        if (!same_file(&files->of[OURS], &files->of[side]))
            stop("two sides left different files");
}

static uint32_t put(struct file *file, uint64_t key) {
    return baseline_put(&file->slip, file->area, file->bytes, key, ~key);
}

void any_held(struct files *files, uint64_t *key, uint32_t count) {
    for (uint32_t i = 0; i < count; i++)
        key[i] = files->held[random_at(1, files->choice++) % files->held_count];
}

void next_fresh(struct files *files, uint64_t *key, uint32_t count) {
    for (uint32_t i = 0; i < count; i++, files->fresh++)
        key[i] = files->style == RANDOM ? random_at(0, files->fresh) : files->fresh;
}

static void remove_each(struct file *file, const uint64_t *key, uint32_t count) {
    for (uint32_t i = 0; i < count; i++)
        if (baseline_remove(&file->slip, file->area, file->bytes, key[i]))
            stop("a key that was put isn't there");
}

// They are tried out and taken back on the copy that isn't measured.
void next_with_room(struct files *files, uint64_t *key, uint32_t count) {
    struct file *file = &files->first;
    for (uint32_t i = 0; i < count;) {
        next_fresh(files, &key[i], 1);
        i += put(file, key[i]) == 0;
    }
    remove_each(file, key, count);
}

// Those that are chosen go to the front of the keys held, so that none is chosen twice.
void take_out(struct files *files, uint64_t *key, uint32_t count) {
    uint64_t *held = files->held;
    for (uint32_t i = 0; i < count; i++) {
        uint32_t from = i + (uint32_t)(random_at(1, files->choice++) % (files->held_count - i));
        key[i] = held[from];
        held[from] = held[i];
        held[i] = key[i];
    }
    remove_each(&files->first, key, count);
}

void put_back(struct files *files, const uint64_t *key, uint32_t count) {
    for (uint32_t i = 0; i < count; i++)
        if (put(&files->first, key[i]))
            stop("a record that was taken out has no room");
    if (!same_file(&files->first, &files->of[OURS]))
        stop("records that were put again left another file");
}

// A key without room is left out.
void fill(struct files *files, uint32_t records) {
    while (files->first.slip.records < records) {
        uint64_t key;
        next_fresh(files, &key, 1);
        if (files->fresh > 16u * SLOTS * MOST_PAGES)
            stop("the file can't be filled");
        if (put(&files->first, key) == 0)
            files->held[files->held_count++] = key;
    }
}

static struct file begin(enum style style, uint32_t pages, uint32_t cap) {
    struct file file = new_file(cap);
    if (empty_file(&file.slip, file.area, style == CONSECUTIVE_2 ? 2 : 1, pages, cap))
        stop("no empty file");
    return file;
}

// The same keys put into a file that grows whenever that is due have to give the same bytes.
static void require_grown_alike(const struct files *files, uint32_t pages, uint32_t cap) {
    static uint32_t row[MOST_PAGES];
    struct file file = begin(files->style, 16, cap);
    for (uint32_t i = 0; i < files->held_count; i++) {
        if (put(&file, files->held[i]))
            stop("no room in a file that grows");
        if (baseline_due(&file.slip) && file.slip.pages < pages &&
            baseline_grow(&file.slip, file.area, file.bytes, row, cap))
            stop("a growth was refused");
    }
    while (file.slip.pages < pages && baseline_grow(&file.slip, file.area, file.bytes, row, cap) == 0)
        ;
    if (!same_file(&file, &files->first))
        stop("a file that grew differs from one filled at its last size");
    free(file.area);
}

struct files files_of(enum style style, struct file first) {
    struct files files = {.style = style, .first = first};
    const uint32_t cap = (uint32_t)(first.bytes / PAGE_BYTES);
    for (int side = 0; side < SIDES; side++)
        files.of[side] = new_file(cap);
    files.held = calloc((size_t)SLOTS * cap, sizeof files.held[0]);
    if (!files.held)
        stop("no memory");
    return files;
}

// Since the same records at one size are the same bytes, the file is grown empty and filled at its last size: growing a
// large full one page by page would take longer than all the measuring. The smaller ones are grown full too, to see
// that it comes to the same.
struct files make_files(enum style style, uint32_t pages, uint32_t cap) {
    struct files files = files_of(style, begin(style, pages, cap));
    fill(&files, 48 * pages / 5);
    if (pages <= 512)
        require_grown_alike(&files, pages, cap);
    restore(&files);
    return files;
}

struct files one_page_before(const struct files *from) {
    const struct reefcushion_slip *slip = &from->first.slip;
    struct files files = files_of(from->style, begin(from->style, slip->pages - 1u, slip->cap));
    for (uint32_t i = 0; i < from->held_count; i++)
        if (put(&files.first, from->held[i]))
            stop("no room one page before");
    return files;
}

void drop_files(struct files *files) {
    for (int side = 0; side < SIDES; side++)
        free(files->of[side].area);
    free(files->first.area);
    free(files->held);
}
