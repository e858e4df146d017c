/* mdl_open: a disk in a file of the system. It is an object of its own, so a program that does not use
 * it makes no call of the system. crates/sg_file/src/std_file.rt makes the same calls for sgrun. Neither
 * file is proved. */
#define _XOPEN_SOURCE 700
#include <errno.h>
#include <fcntl.h>
#include <stdio.h>
#include <stdlib.h>
#include <string.h>
#include <sys/file.h>
#include <sys/stat.h>
#include <unistd.h>

#include "mehdalung.h"

/* No longer file is opened, in bytes. */
static const off_t longest_file = (off_t)1 << 60;

/* A file that is open and locked, and its draft. */
struct disk_file {
    mdl_device device;
    int file, draft;                  /* descriptors, or -1 if there is none */
    char *path, *draft_path, *folder; /* without symbolic links */
    uint8_t *contents;                /* all bytes of the file, while it is opened */
    size_t length;                    /* their number */
    uint64_t drafted;                 /* the number of bytes of the draft */
    uint8_t room[MDL_LONGEST_CALL];
};

/* Closes a descriptor, if there is one, and keeps errno. */
static void close_one(int descriptor)
{
    const int error = errno;

    if (descriptor >= 0)
        close(descriptor);
    errno = error;
}

static void close_file(void *context)
{
    struct disk_file *it = context;
    const int error = errno;

    close_one(it->draft);
    close_one(it->file);
    free(it->path);
    free(it->draft_path);
    free(it->folder);
    free(it->contents);
    free(it);
    errno = error;
}

/* A call of the system has done nothing because a signal came, and is made again. */
static int is_interrupted(ssize_t result)
{
    return result < 0 && errno == EINTR;
}

/* Opens a file, or returns -1. Its descriptor is none of a standard stream that is closed: else the
 * program would print into the file. */
static int open_file(const char *path, int flags, mode_t mode)
{
    int first, moved;

    do
        first = open(path, flags | O_CLOEXEC, mode);
    while (is_interrupted(first));
    if (first < 0 || first > STDERR_FILENO)
        return first;
    moved = fcntl(first, F_DUPFD_CLOEXEC, STDERR_FILENO + 1);
    close_one(first);
    return moved;
}

static int sync_all(int descriptor)
{
    int error;

    do
        error = fsync(descriptor);
    while (is_interrupted(error));
    return error;
}

/* Writes all bytes at an offset. */
static int write_all(int descriptor, uint64_t at, const uint8_t *bytes, size_t length)
{
    while (length > 0) {
        ssize_t some = pwrite(descriptor, bytes, length, (off_t)at);

        if (is_interrupted(some))
            continue;
        if (some <= 0)
            return -1;
        at += (size_t)some;
        bytes += some;
        length -= (size_t)some;
    }
    return 0;
}

static int write_at(void *context, uint64_t at, const uint8_t *bytes, size_t length)
{
    return write_all(((const struct disk_file *)context)->file, at, bytes, length);
}

static int cut(void *context, uint64_t length)
{
    const struct disk_file *it = context;
    int error;

    do
        error = ftruncate(it->file, (off_t)length);
    while (is_interrupted(error));
    return error;
}

static int sync_file(void *context)
{
    const struct disk_file *it = context;
    int error;

    do
        error = fdatasync(it->file);
    while (is_interrupted(error));
    return error;
}

/* The draft gets the permissions of the file, and its owner if that is allowed: only root may give a
 * file to somebody else. Until then only the user of the program can open it. */
static int begin_draft(void *context)
{
    struct disk_file *it = context;
    struct stat file;

    close_one(it->draft);
    it->draft = -1;
    it->drafted = 0;
    if (fstat(it->file, &file))
        return -1;
    /* An earlier draft may be there, or none. A symbolic link there is not followed. */
    unlink(it->draft_path);
    it->draft = open_file(it->draft_path, O_WRONLY | O_CREAT | O_EXCL | O_NOFOLLOW, S_IRUSR | S_IWUSR);
    if (it->draft < 0)
        return -1;
    (void)!fchown(it->draft, file.st_uid, file.st_gid);
    return fchmod(it->draft, file.st_mode & (mode_t)07777);
}

static int write_draft(void *context, const uint8_t *bytes, size_t length)
{
    struct disk_file *it = context;
    int error = write_all(it->draft, it->drafted, bytes, length);

    it->drafted += length;
    return error;
}

/* Waits until the names in a folder are on the disk. */
static int sync_folder(const char *path)
{
    int folder = open_file(path, O_RDONLY | O_DIRECTORY, 0), error;

    if (folder < 0)
        return -1;
    error = sync_all(folder);
    close_one(folder);
    return error;
}

/* The draft is on the disk before it gets the name of the file, and locked, so that whoever opens the
 * file meets the lock. */
static int exchange(void *context)
{
    struct disk_file *it = context;

    if (sync_all(it->draft) || flock(it->draft, LOCK_EX | LOCK_NB)
        || rename(it->draft_path, it->path) || sync_folder(it->folder))
        return -1;
    close_one(it->file);
    it->file = it->draft;
    it->draft = -1;
    return 0;
}

/* Locks the file. It is busy if somebody else has locked it, or has put another file at the path
 * meanwhile. Earlier writes to it are on the disk then. */
static mdl_error lock_file(struct disk_file *it, const char *path)
{
    struct stat file, at_path;

    if (flock(it->file, LOCK_EX | LOCK_NB))
        return errno == EWOULDBLOCK ? MDL_FILE_BUSY : MDL_CANNOT_OPEN;
    if (fstat(it->file, &file) || stat(path, &at_path))
        return MDL_CANNOT_OPEN;
    if (file.st_dev != at_path.st_dev || file.st_ino != at_path.st_ino)
        return MDL_FILE_BUSY;
    if (!S_ISREG(file.st_mode)) {
        errno = EINVAL;
        return MDL_CANNOT_OPEN;
    }
    if (file.st_size > longest_file)
        return MDL_FILE_TOO_LONG;
    it->length = (size_t)file.st_size;
    return sync_all(it->file) ? MDL_CANNOT_OPEN : MDL_OK;
}

/* Finds out the paths of the file, of its draft and of their folder. */
static mdl_error find_paths(struct disk_file *it, const char *path)
{
    size_t length;
    char *slash;

    it->path = realpath(path, NULL);
    if (!it->path)
        return errno == ENOMEM ? MDL_OUT_OF_MEMORY : MDL_CANNOT_OPEN;
    length = strlen(it->path);
    it->draft_path = malloc(length + sizeof ".new");
    it->folder = malloc(length + 1);
    if (!it->draft_path || !it->folder)
        return MDL_OUT_OF_MEMORY;
    memcpy(it->draft_path, it->path, length);
    memcpy(it->draft_path + length, ".new", sizeof ".new");
    memcpy(it->folder, it->path, length + 1);
    slash = strrchr(it->folder, '/');
    /* If the file is in the root, the folder is the slash. */
    slash[slash == it->folder] = 0;
    return MDL_OK;
}

static mdl_error read_file(struct disk_file *it)
{
    size_t done = 0;

    it->contents = malloc(it->length + 1);
    if (!it->contents)
        return MDL_OUT_OF_MEMORY;
    while (done < it->length) {
        ssize_t some = pread(it->file, it->contents + done, it->length - done, (off_t)done);

        if (is_interrupted(some))
            continue;
        if (some == 0)
            errno = EIO; /* somebody has cut the file meanwhile */
        if (some <= 0)
            return MDL_CANNOT_OPEN;
        done += (size_t)some;
    }
    return MDL_OK;
}

static mdl_error open_and_read(struct disk_file *it, const char *path)
{
    mdl_error error;

    it->file = open_file(path, O_RDWR | O_CREAT, 0666);
    error = it->file < 0 ? MDL_CANNOT_OPEN : lock_file(it, path);
    if (!error)
        error = find_paths(it, path);
    return error ? error : read_file(it);
}

/* A file that is not open yet, or null. */
static struct disk_file *new_file(void)
{
    struct disk_file *it = malloc(sizeof *it);

    if (!it)
        return NULL;
    it->device = (mdl_device){ it, write_at, cut, sync_file, begin_draft, write_draft, exchange,
                               close_file, it->room, sizeof it->room };
    it->file = it->draft = -1;
    it->path = it->draft_path = it->folder = NULL;
    it->contents = NULL;
    return it;
}

mdl_error mdl_open(mdl_disk *disk, const char *path, uint32_t profile, uint64_t blocks,
                   uint32_t pool, const mdl_identity *identity, mdl_damage *damage)
{
    struct disk_file *it;
    mdl_error error;

    if (!disk || !path)
        return MDL_NULL_POINTER;
    if (disk->target)
        return MDL_DISK_EXISTS;
    it = new_file();
    if (!it)
        return MDL_OUT_OF_MEMORY;
    error = open_and_read(it, path);
    if (!error)
        error = mdl_open_device(disk, &it->device, it->contents, it->length, profile, blocks,
                                pool, identity, damage);
    if (error) {
        close_file(it);
        return error;
    }
    free(it->contents);
    it->contents = NULL;
    return MDL_OK;
}
