/* Not proved. See kept.h. */
#include "kept.h"

#include <errno.h>
#include <inttypes.h>
#include <stdio.h>
#include <string.h>
#include <sys/stat.h>

/* The damage is in no record of a batch. */
#define NO_BATCH UINT64_MAX

int is_without_disk(const char *path)
{
    struct stat status;

    return stat(path, &status) ? errno == ENOENT : status.st_size == 0;
}

const char *text_of_error(mdl_error error)
{
    switch (error) {
    case MDL_BLOCKS: return "the number of blocks is not 1 to 2^40";
    case MDL_POOL: return "the pool is not 1 to 65,536 blocks";
    case MDL_IDENTITY_TEXT: return "a text has a byte outside 20h to 7Eh";
    case MDL_IDENTITY_LOCAL: return "the local identifier has more than 60 bits";
    case MDL_OUT_OF_MEMORY: return "there is no memory";
    case MDL_UNKNOWN_PROFILE: return "there is no such profile";
    case MDL_FILE_FAILED: return "the file can't be written";
    case MDL_FILE_BUSY: return "the file is in use";
    case MDL_NOT_A_DISK: return "the file is not a disk";
    case MDL_FILE_TOO_LONG: return "the file is longer than 2^60 bytes";
    case MDL_OTHER_PROFILE: return "the disk has another profile";
    case MDL_OTHER_BLOCKS: return "the disk has another number of blocks";
    case MDL_OTHER_POOL: return "the disk has another pool";
    case MDL_OTHER_IDENTITY: return "the disk has another identity";
    default: return "there is no disk";
    }
}

/* Writes what is wrong with a file. For MDL_CANNOT_OPEN `number` is the system's error. */
static void write_reason(char *text, size_t length, mdl_error error, const mdl_damage *damage,
                         int number)
{
    if (error == MDL_CANNOT_OPEN)
        snprintf(text, length, "%s", strerror(number));
    else if (error == MDL_OTHER_VERSION)
        snprintf(text, length, "the file has version %" PRIu64 " of the format", damage->offset);
    else if (error == MDL_DAMAGED_FILE && damage->batch == NO_BATCH)
        snprintf(text, length, "the file is damaged at byte %" PRIu64, damage->offset);
    else if (error == MDL_DAMAGED_FILE)
        snprintf(text, length, "the record at byte %" PRIu64 " of batch %" PRIu64 " is damaged",
                 damage->offset, damage->batch);
    else
        snprintf(text, length, "%s", text_of_error(error));
}

int open_kept(mdl_disk *disk, const char *path, const struct wanted *wanted, char *reason)
{
    mdl_damage damage;
    mdl_error error = mdl_open(disk, path, wanted->profile, wanted->blocks, wanted->pool,
                               wanted->identity, &damage);
    int number = errno, length;

    if (!error)
        return 1;
    length = snprintf(reason, REASON_LENGTH, "%.4096s: ", path);
    write_reason(reason + length, REASON_LENGTH - (size_t)length, error, &damage, number);
    return 0;
}
