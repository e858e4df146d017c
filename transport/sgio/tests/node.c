/* Not proved. Tries all that a program sees of the path, apart from commands: how it opens and looks,
 * and what its descriptors do. Then it tries each field of SG_IO's header, each reset, and a server
 * that does not answer or is gone.
 *     node      runs in the environment of `join`, with a server of its own at MDL_SOCKET.
 * If something is not as it should be, it prints a line and has status 1. */
#include <errno.h>
#include <fcntl.h>
#include <linux/fs.h>
#include <pthread.h>
#include <scsi/scsi.h>
#include <scsi/sg.h>
#include <signal.h>
#include <stdint.h>
#include <stdio.h>
#include <stdlib.h>
#include <string.h>
#include <sys/ioctl.h>
#include <sys/stat.h>
#include <sys/sysmacros.h>
#include <sys/uio.h>
#include <sys/wait.h>
#include <unistd.h>

enum {
    GUARD = 0xEE,
    INQUIRY_LENGTH = 36,
    CAPACITY_LENGTH = 8,
    BLOCK = 512,
    LONGEST = 60,            /* seconds, after which it is a hang */
    SHORT_TIMEOUT = 200,     /* milliseconds */
    ROUNDS = 20000
};

static uint8_t test_unit_ready[6], inquiry[6] = { 0x12, 0, 0, 0, 255 };
static uint8_t bad_inquiry[6] = { 0x12, 0, 0x80, 0, 36 };
static uint8_t buffer[4096], sense[64];
static const char *path;
static int node;

#define WANT(condition) \
    do { \
        if (!(condition)) { \
            fprintf(stderr, "node, line %d: not so: %s (errno %d)\n", __LINE__, #condition, errno); \
            exit(1); \
        } \
    } while (0)

/* A header for a CDB, into a guarded buffer. */
static sg_io_hdr_t header_of(uint8_t *cdb, unsigned char length, int direction, unsigned data_length)
{
    sg_io_hdr_t header;

    memset(&header, 0, sizeof header);
    memset(buffer, GUARD, sizeof buffer);
    memset(sense, GUARD, sizeof sense);
    header.interface_id = 'S';
    header.dxfer_direction = direction;
    header.cmd_len = length;
    header.mx_sb_len = sizeof sense;
    header.dxfer_len = data_length;
    header.dxferp = data_length ? buffer : NULL;
    header.cmdp = cdb;
    header.sbp = sense;
    header.timeout = 10000;
    return header;
}

static void expect_ready(int descriptor)
{
    sg_io_hdr_t header = header_of(test_unit_ready, 6, SG_DXFER_NONE, 0);

    WANT(ioctl(descriptor, SG_IO, &header) == 0 && header.status == 0 && header.info == 0);
}

/* Starts a server at MDL_SOCKET, and returns when it listens. */
static pid_t start_server(const char *profile)
{
    int ends[2];
    char line[256];
    pid_t server;

    WANT(pipe(ends) == 0);
    server = fork();
    WANT(server >= 0);
    if (server == 0) {
        dup2(ends[1], 1);
        execlp("server", "server", "--socket", getenv("MDL_SOCKET"), "--blocks", "64", "--pool", "8",
               "--profile", profile, (char *)NULL);
        exit(15);
    }
    close(ends[1]);
    WANT(read(ends[0], line, sizeof line) > 0);
    close(ends[0]);
    return server;
}

static void is_sg_node(const struct stat *status)
{
    WANT(S_ISCHR(status->st_mode) && major(status->st_rdev) == 21 && minor(status->st_rdev) > 32768);
}

static void looks_as_a_node(void)
{
    struct stat status;

    WANT(stat(path, &status) == 0);
    is_sg_node(&status);
    WANT(lstat(path, &status) == 0);
    is_sg_node(&status);
    WANT(fstat(node, &status) == 0);
    is_sg_node(&status);
    WANT(fstatat(AT_FDCWD, path, &status, 0) == 0);
    is_sg_node(&status);
    WANT(fstatat(node, "", &status, AT_EMPTY_PATH) == 0);
    is_sg_node(&status);
    WANT(stat("/dev/null", &status) == 0 && major(status.st_rdev) == 1);
    WANT(fstat(0, &status) == 0 && stat("/nonesuch", &status) < 0 && errno == ENOENT);
}

/* Other paths are opened as ever, the mode of a new file too. */
static void opens_others(void)
{
    char name[] = "/tmp/node-XXXXXX";
    struct stat status;
    int file = mkstemp(name);

    WANT(file >= 0 && close(file) == 0 && unlink(name) == 0);
    umask(0);
    file = open(name, O_RDWR | O_CREAT | O_EXCL, 0640);
    WANT(file >= 0 && fstat(file, &status) == 0 && status.st_mode == (S_IFREG | 0640));
    WANT(write(file, "disk", 4) == 4 && pread(file, buffer, 4, 0) == 4 && memcmp(buffer, "disk", 4) == 0);
    WANT(close(file) == 0 && unlink(name) == 0);
    WANT(open("/nonesuch", O_RDONLY) < 0 && errno == ENOENT);
}

/* A duplicate is the node, and so is what a child inherits; close-on-exec is as it was asked for. */
static void duplicates(void)
{
    int other = dup(node), third = fcntl(node, F_DUPFD, 20);
    int fourth = openat(AT_FDCWD, path, O_RDWR | O_CLOEXEC);
    int status;
    pid_t child;

    expect_ready(other);
    expect_ready(third);
    expect_ready(fourth);
    WANT(fcntl(fourth, F_GETFD) == FD_CLOEXEC && fcntl(node, F_GETFD) == 0);
    child = fork();
    if (child == 0) {
        expect_ready(other);
        exit(0);
    }
    WANT(child > 0 && waitpid(child, &status, 0) == child && status == 0);
    WANT(close(other) == 0 && close(third) == 0 && close(fourth) == 0);
    expect_ready(node);
}

/* No byte gets into the connection but by SG_IO. */
static void is_not_read_or_written(void)
{
    struct iovec part = { buffer, 8 };

    WANT(read(node, buffer, 8) < 0 && errno == EPERM);
    WANT(write(node, buffer, 8) < 0 && errno == EPERM);
    WANT(readv(node, &part, 1) < 0 && errno == EPERM);
    WANT(writev(node, &part, 1) < 0 && errno == EPERM);
    WANT(pread(node, buffer, 8, 0) < 0 && errno == ESPIPE);
    WANT(lseek(node, 0, SEEK_SET) < 0 && errno == ESPIPE);
    expect_ready(node);
}

static void answers_ioctls(void)
{
    int number = 0, negative = -1, numbers[2] = { 1, 1 };

    WANT(ioctl(node, SG_GET_VERSION_NUM, &number) == 0 && number == 30536);
    WANT(ioctl(node, BLKSECTGET, &number) == 0 && number == 2097152);
    WANT(ioctl(node, SG_GET_TIMEOUT, 0) > 0);
    WANT(ioctl(node, SG_SET_TIMEOUT, &number) == 0);
    WANT(ioctl(node, SG_SET_TIMEOUT, &negative) < 0 && errno == EINVAL);
    WANT(ioctl(node, SCSI_IOCTL_GET_IDLUN, numbers) == 0 && numbers[0] == 0 && numbers[1] == 0);
    WANT(ioctl(node, SG_GET_VERSION_NUM, NULL) < 0 && errno == EFAULT);
    WANT(ioctl(node, SG_IO, NULL) < 0 && errno == EFAULT);
    WANT(ioctl(node, 0x1234, &number) < 0 && errno == ENOTTY);
}

/* INQUIRY has 36 bytes: what is left of the buffer is the residual count, and is not written. */
static void counts_what_is_left(void)
{
    static const int reads[] = { SG_DXFER_FROM_DEV, SG_DXFER_TO_FROM_DEV, -5 /* SG_DXFER_UNKNOWN */ };
    sg_io_hdr_t header;
    size_t at;

    for (at = 0; at < sizeof reads / sizeof reads[0]; at++) {
        header = header_of(inquiry, 6, reads[at], 100);
        WANT(ioctl(node, SG_IO, &header) == 0 && header.status == 0 && header.resid == 100 - INQUIRY_LENGTH);
        WANT(memcmp(buffer + 8, "SGMODEL ", 8) == 0 && buffer[INQUIRY_LENGTH] == GUARD);
    }
    header = header_of(inquiry, 6, SG_DXFER_FROM_DEV, 5);
    WANT(ioctl(node, SG_IO, &header) == 0 && header.resid == 0 && buffer[4] == 31 && buffer[5] == GUARD);
    header = header_of(inquiry, 6, SG_DXFER_NONE, 0);
    WANT(ioctl(node, SG_IO, &header) == 0 && header.status == 0 && header.resid == 0);
    header = header_of(inquiry, 6, SG_DXFER_FROM_DEV, 100);
    header.dxferp = NULL;
    WANT(ioctl(node, SG_IO, &header) == 0 && header.resid == 100 - INQUIRY_LENGTH);
}

/* Data in several parts, both ways. */
static void moves_parts(void)
{
    static uint8_t write_3[10] = { 0x2A, 0, 0, 0, 0, 3, 0, 0, 1 };
    static uint8_t read_3[10] = { 0x28, 0, 0, 0, 0, 3, 0, 0, 1 };
    sg_iovec_t parts[3] = { { buffer, 100 }, { buffer + 1000, 400 }, { buffer + 2000, 12 } };
    sg_io_hdr_t header = header_of(write_3, 10, SG_DXFER_TO_DEV, BLOCK);
    size_t at;

    header.iovec_count = 3;
    header.dxferp = parts;
    memset(buffer, 1, 100);
    memset(buffer + 1000, 2, 400);
    memset(buffer + 2000, 3, 12);
    WANT(ioctl(node, SG_IO, &header) == 0 && header.status == 0 && header.resid == 0);
    header = header_of(read_3, 10, SG_DXFER_FROM_DEV, BLOCK);
    WANT(ioctl(node, SG_IO, &header) == 0 && header.status == 0 && header.resid == 0);
    for (at = 0; at < BLOCK; at++)
        WANT(buffer[at] == (at < 100 ? 1 : at < 500 ? 2 : 3));
    header = header_of(read_3, 10, SG_DXFER_FROM_DEV, BLOCK);
    header.iovec_count = 3;
    header.dxferp = parts;
    WANT(ioctl(node, SG_IO, &header) == 0 && buffer[99] == 1 && buffer[100] == GUARD);
    WANT(buffer[1000] == 2 && buffer[1400] == GUARD && buffer[2011] == 3 && buffer[2012] == GUARD);
}

/* The residual count of data-out is what the CDB does not ask for, executed or refused. */
static void leaves_data_out(void)
{
    static uint8_t write_3[10] = { 0x2A, 0, 0, 0, 0, 3, 0, 0, 1 };
    static uint8_t write_nowhere[10] = { 0x2A, 0, 0xFF, 0, 0, 0, 0, 0, 1 };
    static uint8_t reserved_bit[10] = { 0x2A, 0x01, 0, 0, 0, 0, 0, 0, 1 };
    sg_io_hdr_t header = header_of(write_3, 10, SG_DXFER_TO_DEV, 3 * BLOCK);

    WANT(ioctl(node, SG_IO, &header) == 0 && header.status == 0 && header.resid == 2 * BLOCK);
    header = header_of(write_3, 10, SG_DXFER_TO_DEV, BLOCK - 1);
    WANT(ioctl(node, SG_IO, &header) == 0 && header.status == 2 && header.resid == 0);
    header = header_of(write_nowhere, 10, SG_DXFER_TO_DEV, BLOCK + 1);
    WANT(ioctl(node, SG_IO, &header) == 0 && header.status == 2 && header.resid == 1);
    header = header_of(reserved_bit, 10, SG_DXFER_TO_DEV, BLOCK);
    WANT(ioctl(node, SG_IO, &header) == 0 && header.status == 2 && header.resid == BLOCK);
    header = header_of(test_unit_ready, 6, SG_DXFER_TO_DEV, 5);
    WANT(ioctl(node, SG_IO, &header) == 0 && header.status == 0 && header.resid == 5);
}

/* Sense data of 18 bytes goes as far as the buffer has room. */
static void cuts_sense(void)
{
    static const unsigned char rooms[] = { 0, 1, 8, 17, 18, 64 };
    sg_io_hdr_t header;
    size_t at;
    int length;

    for (at = 0; at < sizeof rooms; at++) {
        header = header_of(bad_inquiry, 6, SG_DXFER_FROM_DEV, INQUIRY_LENGTH);
        header.mx_sb_len = rooms[at];
        length = rooms[at] < 18 ? rooms[at] : 18;
        WANT(ioctl(node, SG_IO, &header) == 0 && header.status == 2 && header.masked_status == 1);
        WANT(header.sb_len_wr == length && header.driver_status == (length ? 8 : 0));
        WANT(header.info == SG_INFO_CHECK && header.resid == INQUIRY_LENGTH && buffer[0] == GUARD);
        WANT(sense[length] == GUARD);
        WANT(length < 18 || (sense[2] == 5 && sense[12] == 0x24 && sense[17] == 2));
    }
    header = header_of(bad_inquiry, 6, SG_DXFER_FROM_DEV, INQUIRY_LENGTH);
    header.sbp = NULL;
    WANT(ioctl(node, SG_IO, &header) == 0 && header.status == 2 && header.sb_len_wr == 0);
}

static void expect_attention(unsigned char ascq)
{
    sg_io_hdr_t header = header_of(test_unit_ready, 6, SG_DXFER_NONE, 0);

    WANT(ioctl(node, SG_IO, &header) == 0 && header.status == 2);
    WANT(sense[2] == 6 && sense[12] == 0x29 && sense[13] == ascq);
    expect_ready(node);
}

/* SG_SCSI_RESET by its numbers in Linux: a reset of the device is 29h/03h, and one of the target, bus
 * or host 29h/02h, with and without SG_SCSI_RESET_NO_ESCALATE. Each initiator gets it. */
static void resets(void)
{
    static const struct { int number; unsigned char ascq; } rows[] = {
        { 1, 0x03 }, { 0x101, 0x03 }, { 4, 0x02 }, { 0x104, 0x02 }, { 2, 0x02 }, { 0x102, 0x02 },
        { 3, 0x02 }, { 0x103, 0x02 },
    };
    static const int none[] = { 0, 0x100 }, unknown[] = { 5, 0x105, 0x201, -1 };
    size_t at;

    WANT(setenv("MDL_INITIATOR", "6", 1) == 0);
    expect_attention(0x00);
    for (at = 0; at < sizeof rows / sizeof rows[0]; at++) {
        WANT(ioctl(node, SG_SCSI_RESET, &rows[at].number) == 0);
        expect_attention(rows[at].ascq);
        WANT(setenv("MDL_INITIATOR", "7", 1) == 0);
        expect_attention(rows[at].ascq);
        WANT(setenv("MDL_INITIATOR", "6", 1) == 0);
    }
    for (at = 0; at < sizeof none / sizeof none[0]; at++)
        WANT(ioctl(node, SG_SCSI_RESET, &none[at]) == 0);
    for (at = 0; at < sizeof unknown / sizeof unknown[0]; at++)
        WANT(ioctl(node, SG_SCSI_RESET, &unknown[at]) < 0 && errno == EIO);
    WANT(ioctl(node, SG_SCSI_RESET, NULL) < 0 && errno == EFAULT);
    expect_ready(node);
    WANT(setenv("MDL_INITIATOR", "7", 1) == 0);
    expect_ready(node);
}

/* Executes a command again and again; each time its data-in has to be the same. */
static void *repeat(void *argument)
{
    uint8_t data[64], first[64];
    sg_io_hdr_t header = *(const sg_io_hdr_t *)argument;
    int at, length = header.cmd_len == sizeof inquiry ? INQUIRY_LENGTH : CAPACITY_LENGTH;

    header.dxfer_len = sizeof data;
    header.dxferp = data;
    header.sbp = NULL;
    for (at = 0; at < ROUNDS; at++) {
        memset(data, GUARD, sizeof data);
        WANT(ioctl(node, SG_IO, &header) == 0 && header.status == 0);
        WANT(header.resid == (int)sizeof data - length && data[length] == GUARD);
        if (at == 0)
            memcpy(first, data, sizeof data);
        WANT(memcmp(first, data, sizeof data) == 0);
    }
    return NULL;
}

/* Threads may use one descriptor at once: each gets the reply to its own command. */
static void serves_threads(void)
{
    static uint8_t read_capacity[10] = { 0x25 };
    sg_io_hdr_t headers[2] = { header_of(inquiry, 6, SG_DXFER_FROM_DEV, 0),
                               header_of(read_capacity, 10, SG_DXFER_FROM_DEV, 0) };
    pthread_t threads[2];

    WANT(pthread_create(&threads[0], NULL, repeat, &headers[0]) == 0);
    WANT(pthread_create(&threads[1], NULL, repeat, &headers[1]) == 0);
    WANT(pthread_join(threads[0], NULL) == 0 && pthread_join(threads[1], NULL) == 0);
}

/* A server that is stopped costs the time that the header has. Its late reply is not the one to the
 * next command. A server that is gone is no device. */
static void misses_the_server(pid_t server)
{
    sg_io_hdr_t header = header_of(test_unit_ready, 6, SG_DXFER_NONE, 0);
    const int device = SG_SCSI_RESET_DEVICE;

    header.timeout = SHORT_TIMEOUT;
    WANT(kill(server, SIGSTOP) == 0);
    WANT(ioctl(node, SG_IO, &header) == 0 && header.host_status == 3 && header.info == SG_INFO_CHECK);
    WANT(header.duration >= SHORT_TIMEOUT && header.duration < 20 * SHORT_TIMEOUT);
    WANT(kill(server, SIGCONT) == 0);
    header = header_of(inquiry, 6, SG_DXFER_FROM_DEV, INQUIRY_LENGTH);
    WANT(ioctl(node, SG_IO, &header) == 0 && header.host_status == 0 && header.info == SG_INFO_OK);
    WANT(header.resid == 0 && buffer[4] == INQUIRY_LENGTH - 5);
    expect_ready(node);
    WANT(close(node) == 0);
    node = open(path, O_RDWR);
    WANT(node >= 0);
    expect_ready(node);
    WANT(kill(server, SIGTERM) == 0 && waitpid(server, NULL, 0) == server);
    header.timeout = 10000;
    WANT(ioctl(node, SG_IO, &header) < 0 && errno == ENODEV);
    WANT(ioctl(node, SG_SCSI_RESET, &device) < 0 && errno == ENODEV);
    WANT(open(path, O_RDWR) < 0 && errno == ENXIO);
}

/* Texts that name no initiator of the disk, and then null. The node is open. */
static void refuses_initiators(const char *const *texts)
{
    sg_io_hdr_t header = header_of(test_unit_ready, 6, SG_DXFER_NONE, 0);
    const char *own = getenv("MDL_INITIATOR");
    char kept[3];

    WANT(own && strlen(own) < sizeof kept);
    strcpy(kept, own);
    for (; *texts; texts++) {
        WANT(setenv("MDL_INITIATOR", *texts, 1) == 0 && open(path, O_RDWR) < 0 && errno == EINVAL);
        WANT(ioctl(node, SG_IO, &header) < 0 && errno == EINVAL);
    }
    WANT(setenv("MDL_INITIATOR", kept, 1) == 0);
    expect_ready(node);
}

/* Opens the node as an initiator of a new disk, for which a unit attention is pending. */
static void opens(const char *initiator)
{
    WANT(setenv("MDL_INITIATOR", initiator, 1) == 0);
    node = open(path, O_RDWR | O_NONBLOCK);
    WANT(node >= 0);
    expect_attention(0x00);
}

/* An extended disk has 64 initiators. Each resets the disk for all. */
static void has_64_initiators(void)
{
    static const char *const none[] = { "64", "99", "063", "0x3f", "100", "-1", "+1", " 1", "1 ", NULL };
    const pid_t server = start_server("extended");
    const int device = SG_SCSI_RESET_DEVICE;

    opens("8");
    WANT(close(node) == 0);
    opens("63");
    refuses_initiators(none);
    WANT(ioctl(node, SG_SCSI_RESET, &device) == 0);
    expect_attention(0x03);
    WANT(setenv("MDL_INITIATOR", "8", 1) == 0);
    expect_attention(0x03);
    WANT(close(node) == 0 && kill(server, SIGTERM) == 0 && waitpid(server, NULL, 0) == server);
}

int main(void)
{
    static const char *const none[] = { "8", "63", "64", "07", NULL };
    pid_t server;

    path = getenv("disk");
    WANT(path && getenv("MDL_SOCKET"));
    alarm(LONGEST);
    server = start_server("base");
    opens("7");
    refuses_initiators(none);
    looks_as_a_node();
    opens_others();
    duplicates();
    is_not_read_or_written();
    answers_ioctls();
    counts_what_is_left();
    moves_parts();
    leaves_data_out();
    cuts_sense();
    resets();
    serves_threads();
    misses_the_server(server);
    has_64_initiators();
    return 0;
}
