// A register file, as the programs here read and write it: the 16 bytes of the state that a slip begins with, and the
// pages behind them.
#ifndef REGISTER_FILE_H
#define REGISTER_FILE_H

#include <stdbool.h>
#include <stdint.h>
#include <stdio.h>

#include "reefcushion.h"

enum { MOST_PAGES = 4096, MOST_AREA = MOST_PAGES * REEFCUSHION_PAGE };

// Room for any register file. Before it is read or formatted it has no state and no pages, and is all zero.
struct register_file {
    struct reefcushion_slip slip;
    bool has_state;
    size_t area_bytes;
    uint8_t area[MOST_AREA + 1]; // one byte more than any area has, so that a longer file is known as one
};

// Reads a file into room that is all zero, and gives false where it can't be read; errno says why. Whether state and
// pages go together the calls will tell. A state that is cut short ends in zeros, and is none.
bool read_register(struct register_file *file, const char *name);

// Writes state and pages to where `out` is, and gives false where they can't be written; errno says why.
bool write_register(const struct register_file *file, FILE *out);

// How many counts the row for a growth or a merge has: one a page lent. More pages than a register can have are refused
// by their number, whatever the row is.
size_t row_counts(const struct register_file *file);

#endif
