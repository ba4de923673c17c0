// Makes register files to try things with: keep FILE < commands. The file is read if it is there, the commands are
// carried out, a line each, and it is written back. What is refused is told with its line. It isn't made for daily use:
// a run that is cut off while it writes leaves half a file.
#include <errno.h>
#include <stdbool.h>
#include <stdio.h>
#include <string.h>

#include "register_file.h"

enum { MOST_LINE = 200, MOST_WORDS = 7 };

// The register, with as many pages as its file has or a format asked for. There is none before the first format.
static struct register_file file;
static struct reefcushion_slip *const slip = &file.slip;
static uint32_t row[MOST_PAGES];

// More pages than there are in all are refused by their number, so it doesn't matter how many are lent then.
static uint32_t format(const uint64_t *number) {
    size_t bytes = number[3] < MOST_PAGES ? number[3] * REEFCUSHION_PAGE : MOST_AREA;
    uint32_t refusal =
        reefcushion_format_edition(slip, sizeof *slip, file.area, bytes, (uint16_t)number[0], (uint16_t)number[1],
                                   (uint16_t)number[2], (uint16_t)number[3], (uint16_t)number[4]);
    if (refusal == REEFCUSHION_ACCEPTED) {
        file.area_bytes = bytes;
        file.has_state = true;
    }
    return refusal;
}

static uint32_t put(const uint64_t *number) {
    return reefcushion_put(slip, sizeof *slip, file.area, file.area_bytes, number[0], number[1]);
}

static uint32_t take_out(const uint64_t *number) {
    return reefcushion_remove(slip, sizeof *slip, file.area, file.area_bytes, number[0]);
}

static uint32_t grow(const uint64_t *number) {
    (void)number;
    return reefcushion_grow(slip, sizeof *slip, file.area, file.area_bytes, row, row_counts(&file));
}

static uint32_t shrink(const uint64_t *number) {
    (void)number;
    return reefcushion_shrink(slip, sizeof *slip, file.area, file.area_bytes);
}

// A command takes so many numbers, none above the largest.
struct command {
    const char *name, *takes;
    int least, most;
    uint64_t largest;
    uint32_t (*call)(const uint64_t *number);
};
static const char *const help = "say format N0 N S CAP [EDITION], put KEY VALUE, remove KEY, grow or shrink";
static const struct command commands[] = {
    {"format", "4 or 5 numbers", 4, 5, UINT16_MAX, format},
    {"put", "2 numbers", 2, 2, UINT64_MAX, put},
    {"remove", "1 number", 1, 1, UINT64_MAX, take_out},
    {"grow", "no number", 0, 0, 0, grow},
    {"shrink", "no number", 0, 0, 0, shrink},
};

static const struct command *command_of(const char *name) {
    for (size_t i = 0; i < sizeof commands / sizeof commands[0]; i++)
        if (!strcmp(name, commands[i].name))
            return &commands[i];
    return NULL;
}

// A refusal in words, with the page or the commit that it tells.
static void say_refusal(uint32_t refusal) {
    switch (refusal) {
    case REEFCUSHION_OUT_OF_RANGE:
        printf("a number of the file's state is out of range, or no file was formatted yet\n");
        break;
    case REEFCUSHION_WRONG_AREA:
        printf("the file isn't as long as its state says\n");
        break;
    case REEFCUSHION_BROKEN:
        printf("page %u is broken\n", slip->page);
        break;
    case REEFCUSHION_ABSENT:
        printf("absent\n");
        break;
    case REEFCUSHION_HELD:
        printf("held already, as commit %llu\n", (unsigned long long)slip->value);
        break;
    case REEFCUSHION_NO_ROOM:
        printf("no room\n");
        break;
    case REEFCUSHION_AT_CAP:
        printf("the file has grown to all of its pages\n");
        break;
    case REEFCUSHION_NOT_IMAGE:
        printf("the count or the image is wrong\n");
        break;
    case REEFCUSHION_CLASH:
        printf("clash: commit %llu is held\n", (unsigned long long)slip->value);
        break;
    case REEFCUSHION_AT_START:
        printf("the file has the pages that it started with\n");
        break;
    default:
        printf("no answer of the register\n");
        break;
    }
}

static bool read_number(const char *word, uint64_t largest, uint64_t *number) {
    for (*number = 0; *word; word++) {
        uint64_t digit = (uint64_t)*word - '0';
        if (digit > 9 || *number > (largest - digit) / 10)
            return false;
        *number = 10 * *number + digit;
    }
    return true;
}

// Whether the words are a command that was accepted. If not, what they came to is told. A format that names no edition
// is one of edition 1.
static bool carry_out(char *const *word, int words, unsigned line) {
    uint64_t number[MOST_WORDS] = {[4] = 1};
    const struct command *command = command_of(word[0]);
    const int given = words - 1;
    if (!command) {
        printf("line %u: \"%s\" is no command; %s\n", line, word[0], help);
        return false;
    }
    if (given < command->least || given > command->most) {
        printf("line %u: \"%s\" takes %s\n", line, word[0], command->takes);
        return false;
    }
    for (int i = 0; i < given; i++)
        if (!read_number(word[i + 1], command->largest, &number[i])) {
            printf("line %u: \"%s\" is no number from 0 to %llu\n", line, word[i + 1],
                   (unsigned long long)command->largest);
            return false;
        }
    uint32_t refusal = command->call(number);
    if (refusal == REEFCUSHION_ACCEPTED)
        return true;
    printf("line %u,", line);
    for (int i = 0; i < words; i++)
        printf(" %s", word[i]);
    printf(": refused %u: ", refusal);
    say_refusal(refusal);
    return false;
}

// Parts a line into words, and gives how many there are; those beyond the room for them are counted as one.
static int split(char *line, char *word[MOST_WORDS]) {
    int words = 0;
    for (char *at = line; *at && words < MOST_WORDS;) {
        if (*at == ' ' || *at == '\t' || *at == '\r') {
            *at++ = 0;
            continue;
        }
        word[words++] = at;
        while (*at && *at != ' ' && *at != '\t' && *at != '\r')
            at++;
    }
    return words;
}

// The next line of the text, as far as there is room; false where the text ends.
static bool next_line(char line[MOST_LINE + 1], bool *is_whole) {
    int c, length = 0;
    *is_whole = true;
    while ((c = getc(stdin)) != EOF && c != '\n') {
        if (length < MOST_LINE)
            line[length++] = (char)(c ? c : '?');
        else
            *is_whole = false;
    }
    line[length] = 0;
    return c != EOF || length;
}

// All commands of the text: whether each was accepted.
static bool carry_out_all(void) {
    char line[MOST_LINE + 1], *word[MOST_WORDS];
    bool good = true, is_whole;
    for (unsigned at = 1; next_line(line, &is_whole); at++) {
        int words = split(line, word);
        if (words == 0 || word[0][0] == '#')
            continue;
        if (is_whole) {
            good &= carry_out(word, words, at);
        } else {
            printf("line %u is too long\n", at);
            good = false;
        }
    }
    return good;
}

// A file that isn't there is a register with nothing in it yet. One that is there has a whole state and no more pages
// than a register can have; whether they go together the calls will tell.
static bool read_file(const char *name) {
    if (!read_register(&file, name))
        return errno == ENOENT;
    return file.has_state && file.area_bytes <= MOST_AREA;
}

static bool write_file(const char *name) {
    FILE *out = fopen(name, "wb");
    if (!out)
        return false;
    bool whole = write_register(&file, out);
    return fclose(out) == 0 && whole;
}

int main(int words, char **word) {
    if (words != 2) {
        fprintf(stderr, "usage: keep FILE < commands, a line each; %s\n", help);
        return 2;
    }
    if (!read_file(word[1])) {
        fprintf(stderr, "keep: %s can't be read as a register file\n", word[1]);
        return 2;
    }
    bool good = carry_out_all();
    if (ferror(stdin)) {
        fprintf(stderr, "keep: the commands can't be read, and %s is left as it was\n", word[1]);
        return 2;
    }
    if (file.has_state && !write_file(word[1])) {
        fprintf(stderr, "keep: %s can't be written\n", word[1]);
        return 2;
    }
    return good ? 0 : 1;
}
