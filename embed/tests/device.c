/* A disk in a file of the program's own, whose power fails at one of its calls. The reply says so, the disk
 * is dead, and what is left of the file has the disk after some first part of the commands: at least
 * all that was put into the file. */
#include <stdio.h>
#include <stdlib.h>
#include <string.h>

#include "commands.h"
#include "kept.h"
#include "mehdalung.h"
#include "memory.h"

static int failures;
#define WANT(condition) \
    do { \
        if (!(condition)) { \
            failures++; \
            fprintf(stderr, "line %d: not so: %s\n", __LINE__, #condition); \
        } \
    } while (0)

enum { BLOCKS = 4096, POOL = 16, STEPS = 40, LISTS = 9 };
/* A disk of so many blocks, and the longest file of it that is not written afresh. */
enum { USED = 8192, LONG = 2 * (548 * USED + (1 << 18)) + (16 << 20) };

static uint8_t room[MDL_LONGEST_CALL], other_room[MDL_LONGEST_CALL];
static uint64_t after[STEPS + 1]; /* what a power cycle leaves after so many steps */

/* The disk that a file has may have grown. */
static mdl_error open_memory(mdl_disk *disk, struct memory *it, mdl_profile profile)
{
    return mdl_open_device(disk, &it->device, it->file.at, it->file.length, profile,
                           it->file.length ? 0 : BLOCKS, POOL, NULL, NULL);
}

static int shares_flush; /* commands are executed without a flush, and one flush is for three that owe it */

static mdl_error execute(mdl_disk *disk, const struct command *c, int flushes)
{
    return (flushes ? mdl_execute : mdl_execute_unflushed)(
        disk, c->initiator, c->cdb, c->cdb_length, c->data_out, c->data_out_length, data_in,
        sizeof data_in, &reply);
}

/* Takes a step. Returns 1 if all that was changed so far has to be in the file afterwards. If a flush that
 * commands share fails, the disk gives the reply. */
static int step(mdl_disk *disk, const struct command *c, mdl_error *error)
{
    static int owed;

    if (c->is_happening) {
        *error = mdl_happen(disk, &c->happening);
        return 1;
    }
    *error = execute(disk, c, !shares_flush);
    if (*error != MDL_FLUSH_OWED)
        return c->cdb[0] == 0x35 && reply.status == MDL_GOOD;
    WANT(shares_flush);
    *error = MDL_OK;
    if (++owed % 3)
        return 0;
    if (!mdl_flush(disk))
        return 1;
    *error = execute(disk, c, 1);
    return 0;
}

/* Finds out what a power cycle leaves after each first part of the steps. */
static void follow(mdl_profile profile, uint64_t seed)
{
    int count, at;

    for (count = 0; count <= STEPS; count++) {
        mdl_disk disk = MDL_NONE;
        uint64_t of_step = seed;
        struct command c;
        mdl_error error;

        WANT(mdl_make_with_profile(&disk, profile, BLOCKS, POOL, NULL) == MDL_OK);
        for (at = 0; at < count; at++) {
            next_event(profile, &c, &of_step);
            step(&disk, &c, &error);
        }
        mdl_power_cycle(&disk);
        after[count] = digest_of(&disk);
        mdl_free(&disk);
    }
}

/* What is left of the file is the disk after so many steps, or more. */
static void find_left(const struct memory *failed, mdl_profile profile, int least, int most)
{
    mdl_disk disk = MDL_NONE;
    struct memory left;
    uint64_t found;
    int at = least;

    begin_memory_file(&left, &failed->file, other_room, sizeof other_room);
    WANT(open_memory(&disk, &left, profile) == MDL_OK);
    found = disk.target ? digest_of(&disk) : 0;
    while (at < most && after[at] != found)
        at++;
    WANT(after[at] == found);
    mdl_free(&disk);
    WANT(left.closed == 1);
    end_memory_file(&left);
}

/* The reply says that the device has failed. */
static int is_failure(void)
{
    mdl_sense fields;

    return reply.status == MDL_CHECK_CONDITION && reply.data_in_length == 0
        && mdl_read_sense(reply.sense, reply.sense_length, &fields) == MDL_OK && fields.key == 4
        && fields.asc == 0x44 && fields.ascq == 0;
}

/* Each command is answered by this, and nothing is written. */
static void try_dead(mdl_disk *disk, struct memory *it)
{
    static const uint8_t cdbs[][6] = { { 0 }, { 0x12, [4] = 36 }, { 0x03, [4] = 18 }, { 0xFF } };
    const mdl_happening reset = { .kind = MDL_LOGICAL_UNIT_RESET };
    size_t at;

    for (at = 0; at < sizeof cdbs / sizeof *cdbs; at++) {
        memset(&reply, 0xFF, sizeof reply);
        WANT(mdl_execute(disk, 0, cdbs[at], 6, NULL, 0, data_in, sizeof data_in, &reply) == MDL_OK);
        WANT(is_failure());
        memset(&reply, 0xFF, sizeof reply);
        WANT(mdl_execute_unflushed(disk, 0, cdbs[at], 6, NULL, 0, data_in, sizeof data_in, &reply)
             == MDL_OK);
        WANT(is_failure());
    }
    WANT(mdl_happen(disk, &reset) == MDL_FILE_FAILED);
    WANT(mdl_power_cycle(disk) == MDL_FILE_FAILED);
    WANT(mdl_flush(disk) == MDL_FILE_FAILED);
    WANT(it->later_calls == 0 && it->closed == 0);
    WANT(mdl_close(disk) == MDL_FILE_FAILED && !disk->target && it->closed == 1);
    WANT(it->later_calls == 0);
}

/* A step has failed with the device. */
static int has_failed(const struct command *c, mdl_error error)
{
    return c->is_happening ? error == MDL_FILE_FAILED : error == MDL_OK && is_failure();
}

/* Takes the steps, while the power fails at a call. Returns 0 if there is no such call. */
static int fail_at(mdl_profile profile, uint64_t seed, unsigned long call)
{
    mdl_disk disk = MDL_NONE;
    struct memory it;
    uint64_t of_step = seed;
    struct command c;
    mdl_error error;
    int at, flushed = 0, failed;

    begin_memory_file(&it, NULL, room, sizeof room);
    it.fails_at = call;
    it.seed = seed * 1000 + call;
    if ((error = open_memory(&disk, &it, profile))) {
        WANT(error == MDL_FILE_FAILED && !disk.target && it.calls == call && it.closed == 0);
        find_left(&it, profile, 0, 0);
        end_memory_file(&it);
        return 1;
    }
    for (at = 1; at <= STEPS && it.calls < call; at++) {
        next_event(profile, &c, &of_step);
        if (step(&disk, &c, &error) && it.calls < call)
            flushed = at;
        WANT(it.calls < call ? error == MDL_OK : has_failed(&c, error));
    }
    if (it.calls < call) {
        error = mdl_flush(&disk);
        WANT(error == (it.calls < call ? MDL_OK : MDL_FILE_FAILED));
    }
    failed = it.calls >= call;
    if (failed)
        try_dead(&disk, &it);
    else
        WANT(mdl_close(&disk) == MDL_OK && it.closed == 1);
    find_left(&it, profile, failed ? flushed : STEPS, at - 1);
    end_memory_file(&it);
    return failed;
}

/* WRITE(10) of 256 blocks with FUA, so that it is in the file when it returns. */
static mdl_error write_through(mdl_disk *disk, uint32_t lba, uint8_t byte)
{
    static uint8_t blocks[256 * MDL_BLOCK_LENGTH];
    const uint8_t cdb[10] = { 0x2A, 0x08, [4] = (uint8_t)(lba >> 8), [7] = 1 };

    memset(blocks, byte, sizeof blocks);
    return mdl_execute(disk, 0, cdb, sizeof cdb, blocks, sizeof blocks, data_in, sizeof data_in,
                       &reply);
}

/* The first byte of a block. */
static uint8_t first_byte(mdl_disk *disk, uint32_t lba)
{
    const uint8_t read[10] = { 0x28, [4] = (uint8_t)(lba >> 8), [8] = 1 };

    WANT(mdl_execute(disk, 0, read, 10, NULL, 0, data_in, sizeof data_in, &reply) == MDL_OK);
    WANT(reply.status == MDL_GOOD);
    return data_in[0];
}

/* Writes 4 MiB, and then over the first blocks until the file is almost long. Returns how often it wrote
 * there. */
static unsigned long write_much(mdl_disk *disk, const struct memory *it)
{
    static const uint8_t ready[6];
    unsigned long written = 0;
    uint32_t lba;

    WANT(mdl_open_device(disk, (mdl_device *)&it->device, NULL, 0, MDL_PROFILE_EXTENDED, USED, USED, NULL,
                         NULL) == MDL_OK);
    WANT(mdl_execute(disk, 0, ready, 6, NULL, 0, NULL, 0, &reply) == MDL_OK);
    for (lba = 256; lba < USED; lba += 256)
        WANT(write_through(disk, lba, (uint8_t)(lba >> 8)) == MDL_OK && reply.status == MDL_GOOD);
    while (it->file.length <= LONG - 200000 && written < 1000)
        WANT(write_through(disk, 0, (uint8_t)++written) == MDL_OK && reply.status == MDL_GOOD);
    return written;
}

/* Writes until the file is written afresh in several parts, while the power fails at a call of that. What
 * is left has the last write, or the one before it. Returns 0 if there is no such call. */
static int fail_afresh(unsigned long call)
{
    static const uint8_t ready[6];
    mdl_disk disk = MDL_NONE;
    struct memory it, left;
    unsigned long written;
    uint8_t found;
    uint32_t lba;
    int failed;

    begin_memory_file(&it, NULL, room, sizeof room);
    it.seed = call;
    written = write_much(&disk, &it);
    it.drafts = 0;
    it.fails_at = it.calls + call;
    while (it.drafts == 0 && it.calls < it.fails_at && written < 1000)
        WANT(write_through(&disk, 0, (uint8_t)++written) == MDL_OK);
    failed = it.calls >= it.fails_at;
    WANT(written < 1000 && (failed ? is_failure() : reply.status == MDL_GOOD));
    WANT(it.later_calls == 0 && (failed || it.file.length < LONG / 2));
    mdl_free(&disk);
    begin_memory_file(&left, &it.file, other_room, sizeof other_room);
    WANT(mdl_open_device(&disk, &left.device, left.file.at, left.file.length, MDL_ANY_PROFILE, 0, 0,
                         NULL, NULL) == MDL_OK);
    WANT(mdl_execute(&disk, 0, ready, 6, NULL, 0, NULL, 0, &reply) == MDL_OK);
    found = first_byte(&disk, 0);
    WANT(found == (uint8_t)written || (failed && found == (uint8_t)(written - 1)));
    for (lba = 256; lba < USED; lba += 256)
        WANT(first_byte(&disk, lba) == (uint8_t)(lba >> 8));
    mdl_free(&disk);
    end_memory_file(&it);
    end_memory_file(&left);
    return failed;
}

/* Opens a damaged file: it has one of these disks, or none. */
static void open_damaged(struct bytes *file, const uint64_t *disks, int count)
{
    mdl_disk disk = MDL_NONE;
    struct memory it;
    uint64_t found;
    mdl_error error;

    begin_memory_file(&it, file, room, sizeof room);
    error = open_memory(&disk, &it, MDL_PROFILE_BASE);
    if (!error) {
        found = digest_of(&disk);
        while (count > 0 && disks[count - 1] != found)
            count--;
        WANT(count > 0);
    }
    WANT(!error || error == MDL_NOT_A_DISK || error == MDL_OTHER_VERSION || error == MDL_DAMAGED_FILE);
    mdl_free(&disk);
    end_memory_file(&it);
}

/* The file of a disk after `steps` steps with a flush after each. */
static void make_file(struct memory *it, uint64_t seed, int steps)
{
    mdl_disk disk = MDL_NONE;
    struct command c;
    mdl_error error;

    begin_memory_file(it, NULL, room, sizeof room);
    WANT(open_memory(&disk, it, MDL_PROFILE_BASE) == MDL_OK);
    while (steps--) {
        next_event(MDL_PROFILE_BASE, &c, &seed);
        step(&disk, &c, &error);
        WANT(mdl_flush(&disk) == MDL_OK);
    }
    mdl_free(&disk);
}

/* A file that was cut, or of which a byte was changed, has an earlier disk or none. */
static void damage(uint64_t seed)
{
    struct memory whole;
    struct bytes cut;
    size_t at;

    follow(MDL_PROFILE_BASE, seed);
    make_file(&whole, seed, STEPS);
    for (at = 0; at < whole.file.length; at += 1 + below(&seed, (uint32_t)(whole.file.length / 500))) {
        cut = whole.file;
        cut.length = at;
        open_damaged(&cut, after, STEPS + 1);
        whole.file.at[at] ^= 1 << below(&seed, 8);
        open_damaged(&whole.file, after, STEPS + 1);
        copy_bytes(&whole.file, &whole.durable);
    }
    end_memory_file(&whole);
}

static void refuse_devices(void)
{
    mdl_disk disk = MDL_NONE;
    struct memory it;
    mdl_device *device = &it.device;

    begin_memory_file(&it, NULL, room, sizeof room);
    WANT(mdl_open_device(NULL, device, NULL, 0, 0, 64, 4, NULL, NULL) == MDL_NULL_POINTER);
    WANT(mdl_open_device(&disk, NULL, NULL, 0, 0, 64, 4, NULL, NULL) == MDL_NULL_POINTER);
    WANT(mdl_open_device(&disk, device, NULL, 1, 0, 64, 4, NULL, NULL) == MDL_NULL_POINTER);
    device->sync = NULL;
    WANT(mdl_open_device(&disk, device, NULL, 0, 0, 64, 4, NULL, NULL) == MDL_NULL_POINTER);
    device->sync = sync_memory;
    device->room_length--;
    WANT(mdl_open_device(&disk, device, NULL, 0, 0, 64, 4, NULL, NULL) == MDL_BUFFER_TOO_SHORT);
    WANT(!disk.target && it.calls == 0 && it.closed == 0);
    device->room_length++;
    device->close = NULL;
    WANT(mdl_open_device(&disk, device, NULL, 0, 0, 64, 4, NULL, NULL) == MDL_OK);
    WANT(mdl_open_device(&disk, device, NULL, 0, 0, 64, 4, NULL, NULL) == MDL_DISK_EXISTS);
    WANT(mdl_close(&disk) == MDL_OK && !disk.target && it.closed == 0);
    end_memory_file(&it);
}

int main(void)
{
    unsigned long call, calls = 0;
    uint64_t seed;

    refuse_devices();
    for (seed = 1; seed <= LISTS; seed++) {
        mdl_profile profile = (mdl_profile)(seed % (MDL_PROFILE_EXTENDED_512E + 1));

        shares_flush = 0;
        follow(profile, seed);
        for (call = 1; fail_at(profile, seed, call); call++)
            calls++;
        shares_flush = 1;
        for (call = 1; fail_at(profile, seed, call); call++)
            calls++;
    }
    shares_flush = 0;
    WANT(calls > 100);
    damage(17);
    for (call = 1; fail_afresh(call); call++)
        ;
    WANT(call > 12);
    return failures != 0;
}
