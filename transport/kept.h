/* Not proved. What both transports do with a disk in a file. */
#ifndef KEPT_H
#define KEPT_H

#include <stddef.h>

#include "mehdalung.h"

/* Has room for a path and why its disk can't be opened. A longer text is cut. */
enum { REASON_LENGTH = 4096 + 128 };

/* Which disk a file has to have. MDL_ANY_PROFILE, 0 and null say nothing of it. */
struct wanted {
    uint32_t profile;
    uint64_t blocks;
    uint32_t pool;
    const mdl_identity *identity;
};

/* Returns 1 if there is no file at a path, or an empty one. Opening it makes a disk. */
int is_without_disk(const char *path);

/* What an error of making or opening a disk says. */
const char *text_of_error(mdl_error error);

/* Opens the disk of a file, or makes it. Returns 0 if that fails, and writes why into `reason`, which
 * has REASON_LENGTH bytes: the path, a colon and what is wrong. */
int open_kept(mdl_disk *disk, const char *path, const struct wanted *wanted, char *reason);

#endif
