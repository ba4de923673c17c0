// Merges a register file into another: merge LIVING OTHER RESULT. The records of OTHER go to those of LIVING in memory
// alone, and the file that this gives is written to RESULT, which must not be there yet. Neither LIVING nor OTHER is
// ever written, so nothing is lost by a merge that wasn't meant. What it came to is told.
//
// Ends with status 0 where RESULT was written, 1 where the two files can't be merged, and 2 where one of them is
// refused or can't be read, or RESULT can't be written or is there already.
#include <errno.h>
#include <signal.h>
#include <stdbool.h>
#include <stdio.h>
#include <stdlib.h>
#include <string.h>
#include <unistd.h>

#include "register_file.h"

static struct register_file living, other;
static uint32_t row[MOST_PAGES];

// The names of the three files, as they were given.
static const char *living_name, *other_name, *result_name;

static bool read_file(struct register_file *file, const char *name) {
    if (read_register(file, name))
        return true;
    fprintf(stderr, "merge: %s can't be read: %s\n", name, strerror(errno));
    return false;
}

static unsigned long long commit_of(struct register_file *file, uint64_t request) {
    reefcushion_find(&file->slip, sizeof file->slip, file->area, file->area_bytes, request);
    return file->slip.value;
}

// The merge tells the lowest request that has two commits; what they are is found in each file.
static void say_clash(void) {
    const uint64_t request = living.slip.value;
    const unsigned long long here = commit_of(&living, request), there = commit_of(&other, request);
    printf("request %llu has two commits: %llu in %s, %llu in %s; nothing was merged\n", (unsigned long long)request,
           here, living_name, there, other_name);
}

// The row tells how many records of both files have their home on each page, those that both hold once, so its sum is
// how many there are. A growth makes no room: it gives no record a lower home, and each stands at its home or higher.
static void say_no_room(void) {
    const size_t pages = row_counts(&living);
    unsigned together = 0;
    for (size_t page = 0; page < pages; page++)
        together += row[page];
    printf("%s, with %zu lent %s, has no room for the %u records of both; nothing was merged; it takes a file of more "
           "lent pages or of other parameters, and growing doesn't help\n",
           living_name, pages, pages == 1 ? "page" : "pages", together);
}

// A file that is refused, in the words of ./nightly.
static void say_refused(uint32_t refusal) {
    const char *name = living.slip.file == 1 ? living_name : other_name;
    printf("refused %u: ", refusal);
    switch (refusal) {
    case REEFCUSHION_OUT_OF_RANGE:
        printf("a number of the state of %s is out of range\n", name);
        break;
    case REEFCUSHION_WRONG_AREA:
        printf("%s isn't as long as its state says\n", name);
        break;
    case REEFCUSHION_BROKEN:
        printf("page %u of %s is broken\n", living.slip.page, name);
        break;
    case REEFCUSHION_NOT_IMAGE:
        printf("the count or the image of %s is wrong\n", name);
        break;
    default:
        printf("this number isn't known here\n");
        break;
    }
}

// Says that the result can't be written, with the reason that errno has.
static bool unwritten(void) {
    fprintf(stderr, "merge: %s can't be written: %s\n", result_name, strerror(errno));
    return false;
}

// While the result stands under another name, no signal that can be held off ends the program: that name would be left
// behind. A limit on the size of files, or a reader that has gone, is then an error of writing like any other.
static void hold_off_signals(void) {
    static const int signals[] = {SIGHUP, SIGINT, SIGQUIT, SIGPIPE, SIGTERM, SIGXFSZ};
    for (size_t i = 0; i < sizeof signals / sizeof signals[0]; i++)
        signal(signals[i], SIG_IGN);
}

// A new file in the directory that the first `place` characters of the result's name are, with its name in `beside`. A
// run that was cut off may have left one there, which is passed over.
static FILE *open_beside(char *beside, int place) {
    FILE *out = NULL;
    for (char tries = '0'; tries <= '9' && !out; tries++) {
        sprintf(beside, "%.*s.merge-%c", place, result_name, tries);
        out = fopen(beside, "wbx");
        if (!out && errno != EEXIST)
            break;
    }
    return out;
}

// Writes the file to the disk, and closes it in any case. Closing tells too what couldn't be written.
static bool write_whole(FILE *out) {
    const bool whole = write_register(&living, out) && fflush(out) == 0 && fsync(fileno(out)) == 0;
    const int why = errno;
    const bool closed = fclose(out) == 0;
    if (!whole)
        errno = why;
    return whole && closed;
}

// Gives a whole file the result's name. Where that name is taken, also by a link or a directory, link does nothing.
static bool name_result(const char *beside) {
    if (link(beside, result_name) == 0)
        return true;
    if (errno != EEXIST)
        return unwritten();
    fprintf(stderr, "merge: %s is there already, and stays as it is\n", result_name);
    return false;
}

// A new name is on the disk when its directory is.
static bool flush_directory(const char *name) {
    FILE *directory = fopen(name, "rb");
    const bool good = directory && fsync(fileno(directory)) == 0;
    if (!good)
        fprintf(stderr, "merge: %s is written, but may not last: %s\n", result_name, strerror(errno));
    if (directory)
        fclose(directory);
    return good;
}

// The result appears whole or not at all: it gets its name when all of it is on the disk under another name.
static bool write_result(void) {
    const char *slash = strrchr(result_name, '/');
    const size_t place = slash ? (size_t)(slash - result_name) + 1 : 0;
    char *beside = malloc(place + sizeof ".merge-0");
    if (!beside)
        return unwritten();
    hold_off_signals();
    FILE *out = open_beside(beside, (int)place);
    bool good = (out && write_whole(out)) || unwritten();
    good = good && name_result(beside);
    if (out && unlink(beside) != 0) {
        fprintf(stderr, "merge: %s can't be removed: %s\n", beside, strerror(errno));
        good = false;
    }
    beside[place] = 0;
    good = good && flush_directory(place ? beside : ".");
    free(beside);
    return good;
}

// What the living file held before, and what came to it from the other. The rest of the other was held already.
static void say_merged(uint32_t held) {
    const uint32_t added = living.slip.records - held;
    printf("%s held %u, %u added from %s, %u in both: %u in %s\n", living_name, held, added, other_name,
           other.slip.records - added, living.slip.records, result_name);
    if (reefcushion_due(&living.slip, sizeof living.slip))
        printf("growth is due in %s; nothing grows by itself\n", result_name);
}

// Merges, writes the result and says what it came to: the status to end with.
static int merge(void) {
    const uint32_t held = living.slip.records;
    const uint32_t refusal =
        reefcushion_merge(&living.slip, sizeof living.slip, living.area, living.area_bytes, &other.slip,
                          sizeof other.slip, other.area, other.area_bytes, row, row_counts(&living));
    switch (refusal) {
    case REEFCUSHION_ACCEPTED:
        if (!write_result())
            return 2;
        say_merged(held);
        return 0;
    case REEFCUSHION_CLASH:
        say_clash();
        return 1;
    case REEFCUSHION_NO_ROOM:
        say_no_room();
        return 1;
    default:
        say_refused(refusal);
        return 2;
    }
}

int main(int words, char **word) {
    if (words != 4) {
        fprintf(stderr, "usage: merge LIVING OTHER RESULT\n");
        return 2;
    }
    living_name = word[1];
    other_name = word[2];
    result_name = word[3];
    if (!read_file(&living, living_name) || !read_file(&other, other_name))
        return 2;
    const int status = merge();
    if (fflush(stdout) != 0 || ferror(stdout)) {
        fprintf(stderr, "merge: it can't be said what was merged\n");
        return 2;
    }
    return status;
}
