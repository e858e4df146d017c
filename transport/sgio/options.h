/* Not proved. The options of a server, its disk, and numbers. */
#ifndef OPTIONS_H
#define OPTIONS_H

#include "kept.h"
#include "mehdalung.h"

struct options {
    const char *socket;
    const char *disk;      /* the path of the disk's file, or null: it is in memory */
    uint64_t blocks, pool; /* the pool is below 2^32; 0: a disk in a file may have any */
    uint32_t profile;      /* or MDL_ANY_PROFILE */
    uint64_t seed;         /* what the options do not name of the identity is made of it */
    int has_identity;      /* 0: a disk in a file may have any */
    mdl_identity identity;
};

/* Reads a number: decimal, or 0x and hexadecimal, and at most `most`. Returns 0 if it is none. Signs
 * and leading zeros of octal are not for us. */
int read_number(const char *text, uint64_t most, uint64_t *number);

/* Reads the words of a command line. Returns null, or what is wrong with them, with the word that it
 * is about in `word`. mdl_make and mdl_open decide which numbers of blocks a disk may have. */
const char *read_options(int count, char **words, int needs_socket, struct options *options,
                         const char **word);

/* Makes the disk, or opens it. Returns 0 if that fails, and writes why into `reason`, which has
 * REASON_LENGTH bytes. */
int make_disk(const struct options *options, mdl_disk *disk, char *reason);

#endif
