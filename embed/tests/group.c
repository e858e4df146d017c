/* Commands that share a flush: which of them owe one, how many calls on the file it takes, and the replies
 * beside a disk in memory. */
#include <stdio.h>
#include <stdlib.h>
#include <string.h>

#include "commands.h"
#include "kept.h"
#include "mehdalung.h"
#include "memory.h"

static int failures;
#define WANT(condition) \
    do { \
        if (!(condition)) { \
            failures++; \
            fprintf(stderr, "line %d: not so: %s\n", __LINE__, #condition); \
        } \
    } while (0)

enum { BLOCKS = 4096, POOL = 256, SHARED = 16, STEPS = 600, LISTS = 6 };

static uint8_t room[MDL_LONGEST_CALL], other_data_in[MDL_BUFFER_LENGTH];

static const uint8_t test_unit_ready[6], synchronize[10] = { 0x35 };
static const uint8_t write_one[10] = { 0x2A, [5] = 5, [8] = 1 };
static const uint8_t write_through[10] = { 0x2A, 0x08, [5] = 5, [8] = 1 };
static const uint8_t read_one[10] = { 0x28, [5] = 5, [8] = 1 };
static const uint8_t read_through[10] = { 0x28, 0x08, [5] = 5, [8] = 1 };
static const uint8_t write_most[10] = { 0x2A, [7] = 1 }; /* 256 blocks */

/* A disk in a file without pending unit attentions. */
static void open_ready(mdl_disk *disk, struct memory *it)
{
    int at;

    begin_memory_file(it, NULL, room, sizeof room);
    WANT(mdl_open_device(disk, &it->device, NULL, 0, MDL_PROFILE_BASE, BLOCKS, POOL, NULL, NULL)
         == MDL_OK);
    for (at = 0; at < (int)MDL_INITIATORS; at++)
        WANT(mdl_execute(disk, (uint32_t)at, test_unit_ready, 6, NULL, 0, NULL, 0, &reply) == MDL_OK);
}

/* Executes a command with one block of data-out, or more, without its flush. */
static mdl_error execute(mdl_disk *disk, const uint8_t *cdb, size_t cdb_length, uint8_t byte)
{
    static uint8_t blocks[256 * MDL_BLOCK_LENGTH];
    size_t length = cdb[0] != 0x2A ? 0 : cdb[7] ? sizeof blocks : MDL_BLOCK_LENGTH;
    mdl_error error;

    memset(blocks, byte, sizeof blocks);
    memset(&reply, 0xFF, sizeof reply);
    error = mdl_execute_unflushed(disk, 1, cdb, cdb_length, blocks, length, data_in, sizeof data_in,
                                  &reply);
    WANT(reply.status == MDL_GOOD);
    return error;
}

/* Sets WCE, and does not save it. */
static mdl_error select_cache(mdl_disk *disk, uint8_t flags)
{
    static const uint8_t cdb[6] = { 0x15, 0x10, [4] = 24 };
    const uint8_t list[24] = { [4] = 0x08, 0x12, flags };

    memset(&reply, 0xFF, sizeof reply);
    return mdl_execute_unflushed(disk, 1, cdb, 6, list, sizeof list, NULL, 0, &reply);
}

/* The block that the file has, as a crash leaves it. */
static uint8_t block_in(const struct memory *it)
{
    static uint8_t other_room[MDL_LONGEST_CALL];
    mdl_disk disk = MDL_NONE;
    struct memory left;
    uint8_t block;

    begin_memory_file(&left, &it->durable, other_room, sizeof other_room);
    WANT(mdl_open_device(&disk, &left.device, left.file.at, left.file.length, MDL_ANY_PROFILE, 0, 0, NULL,
                         NULL) == MDL_OK);
    WANT(mdl_execute(&disk, 1, test_unit_ready, 6, NULL, 0, NULL, 0, &reply) == MDL_OK);
    WANT(mdl_execute(&disk, 1, read_one, 10, NULL, 0, data_in, sizeof data_in, &reply) == MDL_OK);
    block = data_in[0];
    mdl_free(&disk);
    end_memory_file(&left);
    return block;
}

/* Which commands owe a flush, and what is in the file before it and after it. */
static void share(void)
{
    mdl_disk disk = MDL_NONE;
    struct memory it;
    unsigned long before, one;
    int at;

    open_ready(&disk, &it);
    before = it.calls;
    WANT(execute(&disk, write_through, 10, 1) == MDL_FLUSH_OWED && it.calls == before);
    WANT(mdl_flush(&disk) == MDL_OK && block_in(&it) == 1);
    one = it.calls - before;
    before = it.calls;
    WANT(execute(&disk, write_one, 10, 2) == MDL_OK);
    WANT(execute(&disk, read_one, 10, 0) == MDL_OK && data_in[0] == 2);
    WANT(execute(&disk, read_through, 10, 0) == MDL_FLUSH_OWED && data_in[0] == 2);
    for (at = 1; at <= SHARED; at++)
        WANT(execute(&disk, write_through, 10, (uint8_t)(10 + at)) == MDL_FLUSH_OWED);
    WANT(execute(&disk, synchronize, 10, 0) == MDL_FLUSH_OWED);
    WANT(it.calls == before && block_in(&it) == 1);
    WANT(mdl_flush(&disk) == MDL_OK && block_in(&it) == 10 + SHARED);
    WANT(one > 0 && it.calls == before + one);

    /* If nothing waits in memory, nothing is owed. */
    WANT(execute(&disk, synchronize, 10, 0) == MDL_OK);
    WANT(execute(&disk, read_through, 10, 0) == MDL_OK);
    WANT(mdl_flush(&disk) == MDL_OK && it.calls == before + one);

    /* While WCE is 0, each command owes a flush if something waits. */
    WANT(select_cache(&disk, 0) == MDL_FLUSH_OWED && reply.status == MDL_GOOD);
    WANT(mdl_flush(&disk) == MDL_OK);
    WANT(execute(&disk, test_unit_ready, 6, 0) == MDL_OK);
    WANT(execute(&disk, write_one, 10, 3) == MDL_FLUSH_OWED);
    WANT(execute(&disk, test_unit_ready, 6, 0) == MDL_FLUSH_OWED);
    WANT(execute(&disk, read_one, 10, 0) == MDL_FLUSH_OWED && data_in[0] == 3);
    WANT(block_in(&it) == 10 + SHARED && mdl_flush(&disk) == MDL_OK && block_in(&it) == 3);
    WANT(execute(&disk, test_unit_ready, 6, 0) == MDL_OK);
    mdl_free(&disk);
    end_memory_file(&it);
}

/* If much waits in memory, a command writes it, and it waits for the flush in the file. If that fails, the
 * disk is dead. */
static void fill(void)
{
    mdl_disk disk = MDL_NONE;
    struct memory it;
    unsigned long before;
    mdl_error error = MDL_FLUSH_OWED;
    int at;

    open_ready(&disk, &it);
    WANT(select_cache(&disk, 0) == MDL_FLUSH_OWED && mdl_flush(&disk) == MDL_OK);
    before = it.calls;
    for (at = 1; at < 100 && it.calls == before; at++) {
        error = execute(&disk, write_most, 10, (uint8_t)at);
        WANT(error == MDL_FLUSH_OWED);
    }
    WANT(at > 20 && at < 40 && block_in(&it) == 0);
    WANT(mdl_flush(&disk) == MDL_OK && block_in(&it) == at - 1);
    before = it.calls;
    it.fails_at = it.calls + 1;
    for (at = 1; at < 100 && it.calls == before; at++)
        error = mdl_execute_unflushed(&disk, 1, write_most, 10, other_data_in, 256 * MDL_BLOCK_LENGTH,
                                      NULL, 0, &reply);
    WANT(error == MDL_OK && reply.status == MDL_CHECK_CONDITION && reply.sense[12] == 0x44);
    WANT(mdl_flush(&disk) == MDL_FILE_FAILED && it.later_calls == 0);
    mdl_free(&disk);
    end_memory_file(&it);
}

/* Executes a command on a disk in a file without a flush, and on one in memory. Returns 1 if a flush is
 * owed. */
static int compare(mdl_disk *in_file, mdl_disk *in_memory, const struct command *c, int flushes)
{
    mdl_reply other;
    mdl_error error = mdl_execute_unflushed(in_file, c->initiator, c->cdb, c->cdb_length, c->data_out,
                                            c->data_out_length, data_in, sizeof data_in, &reply);

    WANT(error == MDL_OK || error == MDL_FLUSH_OWED);
    WANT((flushes ? mdl_execute : mdl_execute_unflushed)(
             in_memory, c->initiator, c->cdb, c->cdb_length, c->data_out, c->data_out_length,
             other_data_in, sizeof other_data_in, &other) == MDL_OK);
    WANT(reply.status == other.status && reply.sense_length == other.sense_length);
    WANT(memcmp(reply.sense, other.sense, sizeof reply.sense) == 0);
    WANT(reply.data_in_length == other.data_in_length);
    WANT(reply.data_out_length == other.data_out_length);
    WANT(memcmp(data_in, other_data_in, reply.data_in_length) == 0);
    return error == MDL_FLUSH_OWED;
}

/* Random commands have the same replies as on a disk in memory, and leave the same disk. */
static void random_list(mdl_profile profile, uint64_t seed)
{
    mdl_disk in_file = MDL_NONE, in_memory = MDL_NONE;
    struct memory it;
    struct command c;
    int at, owed = 0;

    begin_memory_file(&it, NULL, room, sizeof room);
    WANT(mdl_open_device(&in_file, &it.device, NULL, 0, profile, BLOCKS, 16, NULL, NULL) == MDL_OK);
    WANT(mdl_make_with_profile(&in_memory, profile, BLOCKS, 16, NULL) == MDL_OK);
    for (at = 0; at < STEPS; at++) {
        next_event(profile, &c, &seed);
        if (c.is_happening)
            WANT(mdl_happen(&in_file, &c.happening) == mdl_happen(&in_memory, &c.happening));
        else
            owed += compare(&in_file, &in_memory, &c, at % 2);
        if (owed >= 5) {
            owed = 0;
            WANT(mdl_flush(&in_file) == MDL_OK);
        }
    }
    WANT(mdl_power_cycle(&in_file) == MDL_OK && mdl_power_cycle(&in_memory) == MDL_OK);
    WANT(digest_of(&in_file) == digest_of(&in_memory));
    mdl_free(&in_file);
    mdl_free(&in_memory);
    end_memory_file(&it);
}

/* What is refused changes nothing. */
static void refuse(void)
{
    mdl_disk disk = MDL_NONE;
    mdl_reply before;

    memset(&reply, 0xFF, sizeof reply);
    before = reply;
    WANT(mdl_execute_unflushed(&disk, 0, read_one, 10, NULL, 0, data_in, 512, &reply) == MDL_NO_DISK);
    WANT(mdl_execute_unflushed(&disk, 8, read_one, 10, NULL, 0, data_in, 512, &reply) == MDL_NO_DISK);
    WANT(mdl_make(&disk, 64, 4, NULL) == MDL_OK);
    WANT(mdl_execute_unflushed(&disk, 8, read_one, 10, NULL, 0, data_in, 512, &reply)
         == MDL_NO_INITIATOR);
    WANT(mdl_execute_unflushed(NULL, 0, read_one, 10, NULL, 0, data_in, 512, &reply) == MDL_NULL_POINTER);
    WANT(mdl_execute_unflushed(&disk, 0, NULL, 10, NULL, 0, data_in, 512, &reply) == MDL_NULL_POINTER);
    WANT(mdl_execute_unflushed(&disk, 0, read_one, 10, NULL, 1, data_in, 512, &reply)
         == MDL_NULL_POINTER);
    WANT(mdl_execute_unflushed(&disk, 0, read_one, 10, NULL, 0, NULL, 512, &reply) == MDL_NULL_POINTER);
    WANT(mdl_execute_unflushed(&disk, 0, read_one, 10, NULL, 0, data_in, 512, NULL) == MDL_NULL_POINTER);
    WANT(memcmp(&reply, &before, sizeof reply) == 0);
    WANT(mdl_execute_unflushed(&disk, 0, NULL, 0, NULL, 0, NULL, 0, &reply) == MDL_OK);
    WANT(mdl_execute_unflushed(&disk, 0, test_unit_ready, 6, NULL, 0, NULL, 0, &reply) == MDL_OK);
    before = reply;
    WANT(mdl_execute_unflushed(&disk, 0, read_one, 10, NULL, 0, data_in, 511, &reply)
         == MDL_BUFFER_TOO_SHORT);
    WANT(memcmp(&reply, &before, sizeof reply) == 0);
    mdl_free(&disk);
}

int main(void)
{
    uint64_t seed;

    refuse();
    share();
    fill();
    for (seed = 1; seed <= LISTS; seed++)
        random_list((mdl_profile)(seed % (MDL_PROFILE_EXTENDED_512E + 1)), seed);
    return failures != 0;
}
