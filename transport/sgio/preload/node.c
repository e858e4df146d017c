/* Not proved. Finds the paths and descriptors of the node, and says how the node looks from
 * outside. */
#include "node.h"

#include <errno.h>
#include <fcntl.h>
#include <stdlib.h>
#include <string.h>
#include <sys/socket.h>
#include <sys/sysmacros.h>
#include <time.h>
#include <unistd.h>

#include "../connection.h"

/* The major number of Linux's sg driver. Tools recognize an sg node by it. No sg node of the kernel
 * has this minor number, because there are at most 32,768. So nobody takes ours for one of the
 * kernel's. */
enum { SG_MAJOR = 21, NODE_MINOR = 0xFFFFF };

enum { MOST_NUMBER_DIGITS = 2 };

static const char *variable(const char *name, const char *otherwise)
{
    const char *value = getenv(name);

    return value && value[0] ? value : otherwise;
}

int is_node_path(const char *path)
{
    return path && variable("MDL_SOCKET", NULL) &&
           strcmp(path, variable("MDL_PATH", "/dev/mehdalung")) == 0;
}

int is_node(int descriptor)
{
    const char *server = variable("MDL_SOCKET", NULL);

    return server && is_connected_to(descriptor, server);
}

/* The number is decimal, without a sign and without a needless zero. */
int initiator_of_process(void)
{
    const char *text = variable("MDL_INITIATOR", "0");
    size_t length = strspn(text, "0123456789");
    int number;

    if (text[length] || length == 0 || length > MOST_NUMBER_DIGITS || (length > 1 && text[0] == '0'))
        return -1;
    number = atoi(text);
    return number < (int)MDL_MOST_INITIATORS ? number : -1;
}

/* Returns 0 or an errno, if a descriptor is no connection, or if the disk does not have the initiator. */
static int refusal(int descriptor, int initiator)
{
    if (descriptor < 0)
        return errno == EMFILE || errno == ENFILE ? errno : ENXIO;
    return is_node(descriptor) ? -find_initiator(descriptor, initiator) : ENXIO;
}

int open_node(int flags)
{
    int initiator = initiator_of_process(), descriptor, error;

    if (initiator < 0) {
        errno = EINVAL;
        return -1;
    }
    descriptor = connect_to(variable("MDL_SOCKET", ""), flags & O_CLOEXEC ? SOCK_CLOEXEC : 0);
    error = refusal(descriptor, initiator);
    if (!error)
        return descriptor;
    if (descriptor >= 0)
        close(descriptor);
    errno = error;
    return -1;
}

void put_node_status(struct stat *status)
{
    memset(status, 0, sizeof *status);
    status->st_mode = S_IFCHR | S_IRUSR | S_IWUSR;
    status->st_rdev = makedev(SG_MAJOR, NODE_MINOR);
    status->st_uid = geteuid();
    status->st_gid = getegid();
    status->st_nlink = 1;
    status->st_ino = 1;
    status->st_blksize = 4096;
}

void put_node_statx(struct statx *status)
{
    struct stat plain;

    put_node_status(&plain);
    memset(status, 0, sizeof *status);
    status->stx_mask = STATX_BASIC_STATS;
    status->stx_mode = (uint16_t)plain.st_mode;
    status->stx_rdev_major = major(plain.st_rdev);
    status->stx_rdev_minor = minor(plain.st_rdev);
    status->stx_uid = plain.st_uid;
    status->stx_gid = plain.st_gid;
    status->stx_nlink = (uint32_t)plain.st_nlink;
    status->stx_ino = plain.st_ino;
    status->stx_blksize = (uint32_t)plain.st_blksize;
}
