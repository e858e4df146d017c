/* Not proved. Functions of the C library that we replace for the node. For everything that is not
 * the node they call the library's own. The tools of Debian 12 reach a device by these
 * functions. */
#include <dlfcn.h>
#include <errno.h>
#include <fcntl.h>
#include <stdarg.h>
#include <string.h>
#include <sys/ioctl.h>
#include <sys/stat.h>
#include <sys/types.h>
#include <sys/uio.h>
#include <unistd.h>

#include "node.h"

/* So one body serves both names of a function. */
_Static_assert(sizeof(struct stat) == sizeof(struct stat64), "off_t has 64 bits");

/* The program sees no other name of this object. */
#pragma GCC visibility push(default)

/* A call that makes a file has a mode. O_TMPFILE has the bit of O_DIRECTORY, too. */
static mode_t mode_of(int flags, va_list arguments)
{
    int is_made = flags & O_CREAT || (flags & O_TMPFILE) == O_TMPFILE;

    return is_made ? va_arg(arguments, mode_t) : 0;
}

/* Each macro makes the function NAME. For the node it does what the node does; otherwise it calls
 * the library's. */
#define OPEN(NAME) \
    int NAME(const char *path, int flags, ...) \
    { \
        int (*next)(const char *, int, ...); \
        va_list arguments; \
        mode_t mode; \
\
        if (is_node_path(path)) \
            return open_node(flags); \
        va_start(arguments, flags); \
        mode = mode_of(flags, arguments); \
        va_end(arguments); \
        NEXT(next, #NAME); \
        return next(path, flags, mode); \
    }

#define OPENAT(NAME) \
    int NAME(int folder, const char *path, int flags, ...) \
    { \
        int (*next)(int, const char *, int, ...); \
        va_list arguments; \
        mode_t mode; \
\
        if (is_node_path(path)) \
            return open_node(flags); \
        va_start(arguments, flags); \
        mode = mode_of(flags, arguments); \
        va_end(arguments); \
        NEXT(next, #NAME); \
        return next(folder, path, flags, mode); \
    }

/* The names that a program compiled with _FORTIFY_SOURCE calls. */
#define OPEN_2(NAME) \
    int NAME(const char *path, int flags); \
    int NAME(const char *path, int flags) \
    { \
        int (*next)(const char *, int); \
\
        if (is_node_path(path)) \
            return open_node(flags); \
        NEXT(next, #NAME); \
        return next(path, flags); \
    }

#define OPENAT_2(NAME) \
    int NAME(int folder, const char *path, int flags); \
    int NAME(int folder, const char *path, int flags) \
    { \
        int (*next)(int, const char *, int); \
\
        if (is_node_path(path)) \
            return open_node(flags); \
        NEXT(next, #NAME); \
        return next(folder, path, flags); \
    }

OPEN(open)
OPEN(open64)
OPENAT(openat)
OPENAT(openat64)
OPEN_2(__open_2)
OPEN_2(__open64_2)
OPENAT_2(__openat_2)
OPENAT_2(__openat64_2)

/* With AT_EMPTY_PATH it is asked of a descriptor. */
static int is_node_at(int folder, const char *path, int flags)
{
    int is_descriptor = flags & AT_EMPTY_PATH && (!path || !*path);

    return is_descriptor ? is_node(folder) : is_node_path(path);
}

#define STAT(NAME, TYPE) \
    int NAME(const char *path, struct TYPE *status) \
    { \
        int (*next)(const char *, struct TYPE *); \
\
        if (is_node_path(path)) { \
            put_node_status((struct stat *)status); \
            return 0; \
        } \
        NEXT(next, #NAME); \
        return next(path, status); \
    }

#define FSTAT(NAME, TYPE) \
    int NAME(int descriptor, struct TYPE *status) \
    { \
        int (*next)(int, struct TYPE *); \
\
        if (is_node(descriptor)) { \
            put_node_status((struct stat *)status); \
            return 0; \
        } \
        NEXT(next, #NAME); \
        return next(descriptor, status); \
    }

#define FSTATAT(NAME, TYPE) \
    int NAME(int folder, const char *path, struct TYPE *status, int flags) \
    { \
        int (*next)(int, const char *, struct TYPE *, int); \
\
        if (is_node_at(folder, path, flags)) { \
            put_node_status((struct stat *)status); \
            return 0; \
        } \
        NEXT(next, #NAME); \
        return next(folder, path, status, flags); \
    }

STAT(stat, stat)
STAT(stat64, stat64)
STAT(lstat, stat)
STAT(lstat64, stat64)
FSTAT(fstat, stat)
FSTAT(fstat64, stat64)
FSTATAT(fstatat, stat)
FSTATAT(fstatat64, stat64)

/* ls and stat call this. */
int statx(int folder, const char *path, int flags, unsigned mask, struct statx *status)
{
    int (*next)(int, const char *, int, unsigned, struct statx *);

    if (is_node_at(folder, path, flags)) {
        put_node_statx(status);
        return 0;
    }
    NEXT(next, "statx");
    return next(folder, path, flags, mask, status);
}

int ioctl(int descriptor, unsigned long request, ...)
{
    int (*next)(int, unsigned long, ...);
    va_list arguments;
    void *argument;
    int result;

    va_start(arguments, request);
    argument = va_arg(arguments, void *);
    va_end(arguments);
    if (!is_node(descriptor)) {
        NEXT(next, "ioctl");
        return next(descriptor, request, argument);
    }
    result = request == SG_IO ? execute_sg_io(descriptor, argument)
             : request == SG_SCSI_RESET ? reset_node(descriptor, argument)
                                        : answer_ioctl(request, argument);
    if (result >= 0)
        return result;
    errno = -result;
    return -1;
}

/* Programs read and write an sg node to send headers of commands that go on beside the program. We
 * do not carry these, and their bytes must not get into the connection. */
#define MOVE(NAME, BUFFER) \
    ssize_t NAME(int descriptor, BUFFER buffer, size_t length) \
    { \
        ssize_t (*next)(int, BUFFER, size_t); \
\
        if (is_node(descriptor)) { \
            errno = EPERM; \
            return -1; \
        } \
        NEXT(next, #NAME); \
        return next(descriptor, buffer, length); \
    }

#define MOVE_VECTOR(NAME) \
    ssize_t NAME(int descriptor, const struct iovec *parts, int count) \
    { \
        ssize_t (*next)(int, const struct iovec *, int); \
\
        if (is_node(descriptor)) { \
            errno = EPERM; \
            return -1; \
        } \
        NEXT(next, #NAME); \
        return next(descriptor, parts, count); \
    }

MOVE(read, void *)
MOVE(write, const void *)
MOVE_VECTOR(readv)
MOVE_VECTOR(writev)

#pragma GCC visibility pop
