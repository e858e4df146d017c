/* See kept_ports.h. */
#include "kept_ports.h"

#include <errno.h>
#include <fcntl.h>
#include <limits.h>
#include <stdio.h>
#include <stdlib.h>
#include <string.h>
#include <sys/stat.h>
#include <unistd.h>

/* The whole file: a line for each number, and two lines of ours. The numbers and our lines fit into the room
 * of one more port. */
enum { MOST_TEXT = (MOST_PORT_NUMBERS + 1) * PORT_TEXT_LENGTH, MOST_PATH = PATH_MAX + 16 };

enum { ISID_DIGITS = 12, PRIVATE = 0600, ALL_PERMISSIONS = 07777 };

static const char header[] = "mehdalung ports 1\n", footer[] = "end\n", before_isid[] = ",i,0x";

/* Writes the path of a file beside the disk's. Returns 0 or an errno. */
static int path_beside(char *path, const char *disk, const char *suffix)
{
    return snprintf(path, MOST_PATH, "%s%s", disk, suffix) < MOST_PATH ? 0 : ENAMETOOLONG;
}

/* Returns 1 if a text is that of a port: no blank, and at its end an ISID. */
static int is_port(const char *text)
{
    size_t length = strlen(text), end = sizeof before_isid - 1 + ISID_DIGITS, at;

    if (length < end || length >= PORT_TEXT_LENGTH)
        return 0;
    for (at = 0; at < length; at++)
        if (text[at] <= ' ' || text[at] >= '\x7F')
            return 0;
    text += length - end;
    return strncmp(text, before_isid, sizeof before_isid - 1) == 0
           && strspn(text + sizeof before_isid - 1, "0123456789abcdef") == ISID_DIGITS;
}

/* Reads a line without its end. Returns 0 if it is none, or gives a number or a port twice. */
static int read_line(struct port_table *table, const char *line)
{
    int number = port_read_number(table, &line);
    struct port port;

    if (number == NO_NUMBER || *line != ' ' || !is_port(line + 1))
        return 0;
    strcpy(port.text, line + 1);
    if (table->last_use[number] || port_number(table, &port) != NO_NUMBER)
        return 0;
    table->ports[number] = port;
    port_use(table, number);
    return 1;
}

/* Reads the text of a file, which is changed. Returns 0 if it is no text of ports. */
static int read_text(struct port_table *table, char *text)
{
    char *line = text + sizeof header - 1, *end;

    if (strncmp(text, header, sizeof header - 1) != 0)
        return 0;
    for (; strcmp(line, footer) != 0; line = end + 1) {
        end = strchr(line, '\n');
        if (!end)
            return 0;
        *end = '\0';
        if (!read_line(table, line))
            return 0;
    }
    return 1;
}

/* Reads an open file of less than MOST_TEXT bytes without a zero, and adds one. Returns 0 or an errno. */
static int load_open(int file, char *text)
{
    struct stat status;
    ssize_t length;

    if (fstat(file, &status))
        return errno;
    if (!S_ISREG(status.st_mode) || status.st_size >= MOST_TEXT)
        return EBADMSG;
    length = read(file, text, MOST_TEXT - 1);
    if (length < 0)
        return errno;
    text[length] = '\0';
    return strlen(text) == (size_t)length ? 0 : EBADMSG;
}

static int load(const char *path, char *text)
{
    int file = open(path, O_RDONLY | O_NOFOLLOW | O_NONBLOCK | O_CLOEXEC), error;

    if (file < 0)
        return errno;
    error = load_open(file, text);
    close(file);
    return error;
}

int read_ports(struct port_table *table, const char *disk)
{
    static char text[MOST_TEXT];
    char path[MOST_PATH];
    int error = path_beside(path, disk, PORTS_SUFFIX);

    if (!error)
        error = load(path, text);
    if (error)
        return error == ENOENT ? 0 : error;
    return read_text(table, text) ? 0 : EBADMSG;
}

/* The number of the port that was used next after a use, or NO_NUMBER. */
static int next_used(const struct port_table *table, uint64_t use)
{
    int number, next = NO_NUMBER;

    for (number = 0; number < table->numbers; number++)
        if (table->last_use[number] > use
            && (next == NO_NUMBER || table->last_use[number] < table->last_use[next]))
            next = number;
    return next;
}

/* Writes the text of a table. Returns its length. */
static size_t write_text(const struct port_table *table, char *text)
{
    char *end = text + sprintf(text, "%s", header);
    int number = next_used(table, 0);

    for (; number != NO_NUMBER; number = next_used(table, table->last_use[number]))
        end += sprintf(end, "%d %s\n", number, table->ports[number].text);
    end += sprintf(end, "%s", footer);
    return (size_t)(end - text);
}

/* Fills a new file, and waits until it is on the medium. Returns 0 or an errno. */
static int fill(int file, const char *disk, const char *text, size_t length)
{
    struct stat status;
    ssize_t count;

    if (stat(disk, &status))
        return errno;
    if (fchown(file, status.st_uid, status.st_gid))
        errno = 0; /* only root may give a file to somebody else */
    if (fchmod(file, status.st_mode & ALL_PERMISSIONS))
        return errno;
    while (length > 0) {
        count = write(file, text, length);
        if (count < 0 && errno != EINTR)
            return errno;
        if (count > 0) {
            text += count;
            length -= (size_t)count;
        }
    }
    return fsync(file) ? errno : 0;
}

/* Waits until the names in the folder of a path are on the medium. Returns 0 or an errno. */
static int sync_folder(const char *path)
{
    char folder[MOST_PATH];
    int file, error;

    strcpy(folder, path);
    strrchr(folder, '/')[1] = '\0';
    file = open(folder, O_RDONLY | O_DIRECTORY | O_CLOEXEC);
    if (file < 0)
        return errno;
    error = fsync(file) ? errno : 0;
    close(file);
    return error;
}

int write_ports(const struct port_table *table, const char *disk)
{
    static char text[MOST_TEXT];
    char path[MOST_PATH], draft[MOST_PATH];
    size_t length = write_text(table, text);
    int error = path_beside(path, disk, PORTS_SUFFIX), file;

    if (!error)
        error = path_beside(draft, disk, PORTS_SUFFIX ".new");
    if (error)
        return error;
    unlink(draft);
    file = open(draft, O_WRONLY | O_CREAT | O_EXCL | O_NOFOLLOW | O_CLOEXEC, PRIVATE);
    if (file < 0)
        return errno;
    error = fill(file, disk, text, length);
    close(file);
    if (!error && rename(draft, path))
        error = errno;
    return error ? error : sync_folder(path);
}
