/* Disks in files, which it makes in the folder FOLDER: each named error, what is kept, and what a
 * program that stops leaves.
 *     file FOLDER */
#define _XOPEN_SOURCE 700
#include <errno.h>
#include <fcntl.h>
#include <stdio.h>
#include <stdlib.h>
#include <string.h>
#include <sys/stat.h>
#include <sys/wait.h>
#include <unistd.h>

#include "kept.h"
#include "mehdalung.h"

static int failures;
#define WANT(condition) \
    do { \
        if (!(condition)) { \
            failures++; \
            fprintf(stderr, "line %d: not so: %s\n", __LINE__, #condition); \
        } \
    } while (0)

enum { BLOCKS = 4096, POOL = 300, MOST_BYTES = 1 << 20 };

static const char name[] = "disk", copied[] = "copy", draft[] = "disk.new";
static mdl_disk disk = MDL_NONE, other = MDL_NONE;
static uint8_t bytes[MOST_BYTES];

static size_t read_bytes(const char *path, uint8_t *to)
{
    FILE *file = fopen(path, "rb");
    size_t length = file ? fread(to, 1, MOST_BYTES, file) : 0;

    WANT(file && length < MOST_BYTES);
    if (file)
        fclose(file);
    return length;
}

static void write_bytes(const char *path, const uint8_t *from, size_t length)
{
    FILE *file = fopen(path, "wb");

    WANT(file && fwrite(from, 1, length, file) == length && fclose(file) == 0);
}

static mdl_error open_any(mdl_disk *to, const char *path, mdl_damage *damage)
{
    return mdl_open(to, path, MDL_ANY_PROFILE, 0, 0, NULL, damage);
}

/* Executes a command of initiator 0, or of another. Returns the status. */
static int status_of(uint32_t initiator, const uint8_t *cdb, size_t length, const uint8_t *data_out,
                     size_t data_out_length)
{
    WANT(mdl_execute(&disk, initiator, cdb, length, data_out, data_out_length, data_in,
                     sizeof data_in, &reply) == MDL_OK);
    return reply.status;
}

/* The number of the last initiator. */
static uint32_t last_of(mdl_profile profile)
{
    return profile == MDL_PROFILE_BASE ? 7 : 63;
}

static void clear_attentions(void)
{
    static const uint8_t ready[6];
    uint32_t at, count = 0;

    WANT(mdl_initiators(&disk, &count) == MDL_OK && count >= MDL_INITIATORS);
    for (at = 0; at < count; at++)
        WANT(status_of(at, ready, sizeof ready, NULL, 0) == MDL_CHECK_CONDITION);
}

static void new_disk(mdl_profile profile)
{
    unlink(name);
    WANT(mdl_open(&disk, name, profile, BLOCKS, POOL, NULL, NULL) == MDL_OK);
    clear_attentions();
}

/* WRITE(10) of one block, with bits of byte 1. */
static void write_block(uint8_t lba, uint8_t byte, uint8_t flags)
{
    const uint8_t cdb[10] = { 0x2A, flags, [5] = lba, [8] = 1 };
    uint8_t block[MDL_BLOCK_LENGTH];

    memset(block, byte, sizeof block);
    WANT(status_of(0, cdb, sizeof cdb, block, sizeof block) == MDL_GOOD);
}

static void synchronize(void)
{
    static const uint8_t cdb[10] = { 0x35 };

    WANT(status_of(0, cdb, sizeof cdb, NULL, 0) == MDL_GOOD);
}

/* MODE SELECT(10) of the caching page, which is not saved. */
static void set_write_cache(int enabled)
{
    static const uint8_t cdb[10] = { 0x55, 0x10, [8] = 28 };
    const uint8_t list[28] = { [8] = 0x08, [9] = 0x12, [10] = (uint8_t)(enabled << 2) };

    WANT(status_of(0, cdb, sizeof cdb, list, sizeof list) == MDL_GOOD);
}

/* MODE SELECT(10) of the control page, which is saved: sense data has descriptors from then on. */
static void save_descriptor_sense(void)
{
    static const uint8_t cdb[10] = { 0x55, 0x11, [8] = 20 };
    static const uint8_t list[20] = { [8] = 0x0A, [9] = 0x0A, [10] = 4 };

    WANT(status_of(0, cdb, sizeof cdb, list, sizeof list) == MDL_GOOD);
}

/* REGISTER of initiator 0 and of another one with APTPL 1, and RESERVE of type 5. */
static void reserve(uint32_t other)
{
    static const uint8_t registers[10] = { 0x5F, 0x06, [8] = 24 };
    static const uint8_t reserves[10] = { 0x5F, 0x01, 0x05, [8] = 24 };
    static const uint8_t new_key[24] = { [15] = 0xA1, [20] = 1 }, key[24] = { [7] = 0xA1 };

    WANT(status_of(0, registers, sizeof registers, new_key, sizeof new_key) == MDL_GOOD);
    WANT(mdl_forget(&disk, other) == MDL_OK);
    WANT(status_of(other, registers, sizeof registers, new_key, sizeof new_key) == MDL_GOOD);
    WANT(status_of(0, reserves, sizeof reserves, key, sizeof key) == MDL_GOOD);
}

static mdl_error happen(const char *words)
{
    mdl_happening happening;
    mdl_error error = mdl_read_happening(words, &happening);

    return error ? error : mdl_happen(&disk, &happening);
}

/* The disk has these armed faults. */
static int has_faults(const char *whole)
{
    char text[256] = "";

    return mdl_faults(&disk, text, sizeof text) == strlen(whole) && strcmp(text, whole) == 0;
}

/* What the file has now: a copy of it is opened. */
static uint64_t kept_digest(void)
{
    uint64_t digest;

    write_bytes(copied, bytes, read_bytes(name, bytes));
    WANT(open_any(&other, copied, NULL) == MDL_OK);
    digest = digest_of(&other);
    mdl_free(&other);
    return digest;
}

/* What the file has at address `lba`: the first byte of the block. */
static int kept_byte(uint8_t lba)
{
    static const uint8_t ready[6];
    const uint8_t read[10] = { 0x28, [5] = lba, [8] = 1 };

    write_bytes(copied, bytes, read_bytes(name, bytes));
    WANT(open_any(&other, copied, NULL) == MDL_OK);
    WANT(mdl_execute(&other, 0, ready, 6, NULL, 0, NULL, 0, &reply) == MDL_OK);
    WANT(mdl_execute(&other, 0, read, 10, NULL, 0, data_in, sizeof data_in, &reply) == MDL_OK);
    mdl_free(&other);
    return data_in[0];
}

/* A disk that was closed is opened as a power cycle leaves it. The second fault has stopped a command of the
 * last initiator. */
static void keep(mdl_profile profile)
{
    static const char of_eight[] =
        "  0: medium 3/11/00 blocks 10 1 healed\n"
        "  1: arrival busy code 25h times 2 to 6 to 7\n    to 6: times 2\n    to 7: times 1\n";
    static const char of_64[] = "  0: medium 3/11/00 blocks 10 1 healed\n"
                                "  1: arrival busy code 25h times 2 to 62 to 63\n    to 63: times 1\n";
    static const uint8_t capacity[10] = { 0x25 };
    const uint32_t last = last_of(profile);
    const char *left = last < 63 ? of_eight : of_64;
    uint64_t digest, mask = 0;
    uint32_t count = 0;

    new_disk(profile);
    write_block(5, 0x55, 0);
    save_descriptor_sense();
    WANT(happen("fault medium 3/11/00 blocks 10 1 healed") == MDL_OK);
    WANT(happen(last < 63 ? "fault arrival busy code 25h times 2 to 7 to 6"
                          : "fault arrival busy code 25h times 2 to 63 to 62") == MDL_OK);
    WANT(happen("grow 5000") == MDL_OK);
    clear_attentions();
    reserve(last);
    WANT(status_of(last, capacity, sizeof capacity, NULL, 0) == MDL_BUSY);
    WANT(has_faults(left) && mdl_flush(&disk) == MDL_OK);
    digest = kept_digest();
    write_block(6, 0x66, 0);
    WANT(kept_digest() == digest);
    WANT(mdl_close(&disk) == MDL_OK && !disk.target);
    WANT(kept_digest() != digest && kept_byte(5) == 0x55 && kept_byte(6) == 0x66);
    WANT(mdl_open(&disk, name, profile, 5000, POOL, NULL, NULL) == MDL_OK);
    clear_attentions();
    WANT(reply.sense[0] == 0x72);
    WANT(mdl_initiators(&disk, &count) == MDL_OK && count == last + 1);
    WANT(mdl_registered(&disk, &mask) == MDL_OK && mask == (1 | (uint64_t)1 << last));
    WANT(has_faults(left) && mdl_power_cycle(&disk) == MDL_OK && has_faults(left));
    digest = kept_digest();
    WANT(digest == digest_of(&disk));
    mdl_free(&disk);
}

/* What is in the file when a command returns. */
static void owe(void)
{
    new_disk(MDL_PROFILE_EXTENDED);
    write_block(1, 0x11, 0x08); /* FUA */
    WANT(kept_byte(1) == 0x11);
    write_block(1, 0x12, 0);
    WANT(kept_byte(1) == 0x11);
    synchronize();
    WANT(kept_byte(1) == 0x12);
    write_block(1, 0x13, 0);
    WANT(kept_byte(1) == 0x12 && mdl_flush(&disk) == MDL_OK && kept_byte(1) == 0x13);
    set_write_cache(0);
    write_block(1, 0x14, 0);
    WANT(kept_byte(1) == 0x14);
    set_write_cache(1);
    write_block(1, 0x15, 0);
    write_block(2, 0x22, 0);
    WANT(kept_byte(1) == 0x14);
    mdl_free(&disk); /* as if the program had stopped */
    WANT(kept_byte(1) == 0x14 && kept_byte(2) == 0);
}

static void refuse_others(void)
{
    mdl_identity identity = MDL_STANDARD_IDENTITY;
    const mdl_profile profile = MDL_PROFILE_EXTENDED;
    static uint8_t before[MOST_BYTES];
    size_t length;

    new_disk(profile);
    WANT(mdl_close(&disk) == MDL_OK);
    length = read_bytes(name, before);
    WANT(mdl_open(&disk, name, MDL_PROFILE_BASE, 0, 0, NULL, NULL) == MDL_OTHER_PROFILE);
    WANT(mdl_open(&disk, name, MDL_PROFILE_EXTENDED_CUT, BLOCKS, POOL, NULL, NULL)
         == MDL_OTHER_PROFILE);
    WANT(mdl_open(&disk, name, MDL_PROFILE_EXTENDED_512E, BLOCKS, POOL, NULL, NULL)
         == MDL_OTHER_PROFILE);
    WANT(mdl_open(&disk, name, profile, BLOCKS + 1, POOL, NULL, NULL) == MDL_OTHER_BLOCKS);
    WANT(mdl_open(&disk, name, profile, 0, POOL + 1, NULL, NULL) == MDL_OTHER_POOL);
    identity.serial[0] = 'X';
    WANT(mdl_open(&disk, name, profile, 0, 0, &identity, NULL) == MDL_OTHER_IDENTITY);
    identity.serial[0] = 0;
    WANT(mdl_open(&disk, name, profile, 0, 0, &identity, NULL) == MDL_IDENTITY_TEXT);
    WANT(mdl_open(&disk, name, 4, 0, 0, NULL, NULL) == MDL_UNKNOWN_PROFILE && !disk.target);
    WANT(read_bytes(name, bytes) == length && !memcmp(bytes, before, length));
    WANT(mdl_open(&disk, name, profile, BLOCKS, POOL, &(mdl_identity)MDL_STANDARD_IDENTITY, NULL)
         == MDL_OK);
    WANT(open_any(&disk, "another", NULL) == MDL_DISK_EXISTS && access("another", F_OK));
    WANT(open_any(&other, name, NULL) == MDL_FILE_BUSY && !other.target);
    WANT(mdl_close(&disk) == MDL_OK);
    WANT(read_bytes(name, bytes) == length && !memcmp(bytes, before, length));
}

/* LOGICAL BLOCKS PER PHYSICAL BLOCK EXPONENT of READ CAPACITY(16). */
static int exponent(void)
{
    static const uint8_t cdb[16] = { 0x9E, 0x10, [13] = 32 };

    WANT(status_of(0, cdb, sizeof cdb, NULL, 0) == MDL_GOOD && reply.data_in_length == 32);
    return data_in[13];
}

/* A disk that reports physical blocks of 4,096 bytes reports them whenever its file is opened, and is
 * opened as no other disk. */
static void keep_physical_blocks(void)
{
    uint32_t profile;

    new_disk(MDL_PROFILE_EXTENDED_512E);
    WANT(exponent() == 3 && mdl_close(&disk) == MDL_OK);
    for (profile = MDL_PROFILE_BASE; profile < MDL_PROFILE_EXTENDED_512E; profile++)
        WANT(mdl_open(&disk, name, profile, BLOCKS, POOL, NULL, NULL) == MDL_OTHER_PROFILE);
    WANT(mdl_open(&disk, name, MDL_PROFILE_EXTENDED_512E, BLOCKS, POOL, NULL, NULL) == MDL_OK);
    clear_attentions();
    WANT(exponent() == 3 && mdl_close(&disk) == MDL_OK && open_any(&disk, name, NULL) == MDL_OK);
    clear_attentions();
    WANT(exponent() == 3 && mdl_close(&disk) == MDL_OK);
    new_disk(MDL_PROFILE_EXTENDED);
    WANT(exponent() == 0 && mdl_close(&disk) == MDL_OK);
}

/* A new disk needs its size and its profile. What was not made leaves an empty file. */
static void refuse_new(void)
{
    struct stat file;

    WANT(open_any(&disk, "new", NULL) == MDL_UNKNOWN_PROFILE);
    WANT(mdl_open(&disk, "new", MDL_PROFILE_BASE, 0, 4, NULL, NULL) == MDL_BLOCKS);
    WANT(mdl_open(&disk, "new", MDL_PROFILE_BASE, 64, 0, NULL, NULL) == MDL_POOL);
    WANT(mdl_open(&disk, "new", MDL_PROFILE_BASE, 64, 65537, NULL, NULL) == MDL_POOL);
    WANT(stat("new", &file) == 0 && file.st_size == 0 && !disk.target);
    WANT(mdl_open(&disk, "new", MDL_PROFILE_BASE, 64, 4, NULL, NULL) == MDL_OK);
    mdl_free(&disk);
    WANT(open_any(&disk, "new", NULL) == MDL_OK);
    mdl_free(&disk);
}

static void refuse_paths(void)
{
    WANT(mdl_open(NULL, name, 0, 64, 4, NULL, NULL) == MDL_NULL_POINTER);
    WANT(mdl_open(&disk, NULL, 0, 64, 4, NULL, NULL) == MDL_NULL_POINTER);
    WANT(open_any(&disk, "missing/disk", NULL) == MDL_CANNOT_OPEN && errno == ENOENT);
    WANT(open_any(&disk, ".", NULL) == MDL_CANNOT_OPEN && errno == EISDIR);
    WANT(open_any(&disk, "/dev/null", NULL) == MDL_CANNOT_OPEN && errno == EINVAL);
    WANT(mkfifo("pipe", 0600) == 0);
    WANT(open_any(&disk, "pipe", NULL) == MDL_CANNOT_OPEN && errno == EINVAL && !disk.target);
}

/* Files that are no disks, with where they are damaged. */
static void refuse_files(void)
{
    static const char text[] = "This is a text, and it is longer than sixteen bytes.";
    static const uint8_t versions[] = { 1, 2, 3, 5 };
    mdl_damage damage = { 1, 1 };
    size_t at, length;

    write_bytes(copied, (const uint8_t *)text, sizeof text);
    WANT(open_any(&disk, copied, NULL) == MDL_NOT_A_DISK);
    new_disk(MDL_PROFILE_BASE);
    write_block(1, 1, 0x08);
    WANT(mdl_close(&disk) == MDL_OK);
    length = read_bytes(name, bytes);
    WANT(bytes[11] == 4);
    for (at = 0; at < sizeof versions; at++) {
        bytes[11] = versions[at];
        write_bytes(copied, bytes, length);
        WANT(open_any(&disk, copied, &damage) == MDL_OTHER_VERSION && damage.offset == versions[at]);
    }
    bytes[11] = 4;
    bytes[12] ^= 1; /* the length of a sector */
    write_bytes(copied, bytes, length);
    WANT(open_any(&disk, copied, &damage) == MDL_DAMAGED_FILE);
    WANT(damage.batch == UINT64_MAX && damage.offset == 12 && !disk.target);
    WANT(truncate(copied, ((off_t)1 << 60) + 1) || open_any(&disk, copied, NULL) == MDL_FILE_TOO_LONG);
}

/* A long file is written afresh. It keeps its permissions and its lock, and no draft is left. */
static void write_afresh(void)
{
    static uint8_t blocks[256 * MDL_BLOCK_LENGTH];
    static const uint8_t cdb[10] = { 0x2A, 0x08, [7] = 1 };
    struct stat before, file;
    int count;

    new_disk(MDL_PROFILE_BASE);
    synchronize();
    write_block(1, 1, 0x08);
    WANT(chmod(name, 0640) == 0 && stat(name, &before) == 0);
    WANT(symlink("victim", draft) == 0);
    for (count = 0; count < 200; count++)
        WANT(status_of(0, cdb, sizeof cdb, blocks, sizeof blocks) == MDL_GOOD);
    WANT(stat(name, &file) == 0 && file.st_ino != before.st_ino && file.st_size < 16 << 20);
    WANT((file.st_mode & 07777) == 0640 && lstat(draft, &file) && access("victim", F_OK));
    WANT(open_any(&other, name, NULL) == MDL_FILE_BUSY);
    WANT(mdl_close(&disk) == MDL_OK && open_any(&disk, name, NULL) == MDL_OK);
    mdl_free(&disk);
}

/* The file is none of the standard streams, even if these are closed. Returns 0 if so. */
static int open_without_streams(void)
{
    int at;

    for (at = 0; at < 3; at++)
        close(at);
    if (mdl_open(&disk, "streams", MDL_PROFILE_BASE, 64, 4, NULL, NULL) || mdl_flush(&disk))
        return 1;
    for (at = 0; at < 3; at++)
        if (fcntl(at, F_GETFD) != -1)
            return 2;
    return mdl_close(&disk) != MDL_OK;
}

static void close_streams(void)
{
    int status = -1;
    pid_t child = fork();

    if (child == 0)
        _exit(open_without_streams());
    WANT(child > 0 && waitpid(child, &status, 0) == child && status == 0);
}

/* A disk in memory, and none. */
static void close_others(void)
{
    WANT(mdl_flush(NULL) == MDL_NULL_POINTER && mdl_close(NULL) == MDL_NULL_POINTER);
    WANT(mdl_flush(&disk) == MDL_NO_DISK && mdl_close(&disk) == MDL_NO_DISK);
    WANT(mdl_make(&disk, 64, 4, NULL) == MDL_OK);
    WANT(mdl_flush(&disk) == MDL_NO_FILE && disk.target);
    WANT(mdl_close(&disk) == MDL_OK && !disk.target);
}

int main(int count, char **words)
{
    if (count != 2 || chdir(words[1]))
        return 2;
    keep(MDL_PROFILE_BASE);
    keep(MDL_PROFILE_EXTENDED);
    keep(MDL_PROFILE_EXTENDED_CUT);
    keep(MDL_PROFILE_EXTENDED_512E);
    owe();
    refuse_others();
    keep_physical_blocks();
    refuse_new();
    refuse_paths();
    refuse_files();
    write_afresh();
    close_streams();
    close_others();
    return failures != 0;
}
