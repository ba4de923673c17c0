// Register files read and written.
#include "register_file.h"

#include <errno.h>

enum { STATE_BYTES = offsetof(struct reefcushion_slip, value) };

bool read_register(struct register_file *file, const char *name) {
    FILE *in = fopen(name, "rb");
    if (!in)
        return false;
    file->has_state = fread(&file->slip, 1, STATE_BYTES, in) == STATE_BYTES;
    file->area_bytes = fread(file->area, 1, sizeof file->area, in);
    const bool good = !ferror(in);
    const int why = errno;
    fclose(in);
    errno = why;
    return good;
}

bool write_register(const struct register_file *file, FILE *out) {
    return fwrite(&file->slip, 1, STATE_BYTES, out) == STATE_BYTES &&
           fwrite(file->area, 1, file->area_bytes, out) == file->area_bytes;
}

size_t row_counts(const struct register_file *file) {
    return file->slip.cap < MOST_PAGES ? file->slip.cap : MOST_PAGES;
}
