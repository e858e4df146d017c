/* Calls on a disk's file that wait while other commands come, as no function of the header lets them. The
 * archive gives up a compaction then, and begins another one later. What the file has is right all the same. */
#include <stdio.h>

#include "../mehdalung.c"
#include "memory.h"

static int failures;
#define WANT(condition) \
    do { \
        if (!(condition)) { \
            failures++; \
            fprintf(stderr, "line %d: not so: %s\n", __LINE__, #condition); \
        } \
    } while (0)

enum { PIECE = 256, PIECES = 16, USED = PIECE * PIECES, STEPS = 2500 };
/* The longest file that is not written afresh. */
enum { LONG = 2 * (548 * USED + (1 << 18)) + (16 << 20) };

static uint8_t room[MDL_LONGEST_CALL], other_room[MDL_LONGEST_CALL], data_in[MDL_BUFFER_LENGTH];
static uint8_t blocks[PIECE * MDL_BLOCK_LENGTH];
static uint8_t pieces[PIECES]; /* the byte of each piece */
static mdl_reply reply;
static unsigned long exchanges;

static int count_exchange(void *context)
{
    exchanges++;
    return exchange_memory(context);
}

/* Makes some of the calls that wait, or all. */
static void make_some(mdl_disk *disk, const mdl_device *device, uint32_t most)
{
    mdl_call call;

    while (most-- && !mehdalung_next_call(disk, &call, device->room, device->room_length))
        WANT(make_call(device, &call) == 0);
}

/* WRITE(10) of a piece. Its calls wait. */
static void write_piece(mdl_disk *disk, uint32_t piece, uint8_t byte, int through)
{
    const uint8_t cdb[10] = { 0x2A, through ? 0x08 : 0, [4] = (uint8_t)piece, [7] = 1 };
    uint32_t error;

    memset(blocks, byte, sizeof blocks);
    error = mehdalung_execute(disk, 0, cdb, sizeof cdb, blocks, sizeof blocks, data_in, sizeof data_in,
                              &reply);
    WANT((error == MDL_OK || error == CALLS_WAIT) && reply.status == MDL_GOOD);
    pieces[piece] = byte;
}

/* The file has all that was written. */
static void check_file(const struct memory *it)
{
    static const uint8_t ready[6];
    mdl_disk disk = MDL_NONE;
    struct memory left;
    uint32_t piece;

    begin_memory_file(&left, &it->file, other_room, sizeof other_room);
    WANT(mdl_open_device(&disk, &left.device, left.file.at, left.file.length, MDL_ANY_PROFILE, 0, 0, NULL,
                         NULL) == MDL_OK);
    WANT(mdl_execute(&disk, 0, ready, 6, NULL, 0, NULL, 0, &reply) == MDL_OK);
    for (piece = 0; piece < PIECES; piece++) {
        const uint8_t read[10] = { 0x28, [4] = (uint8_t)piece, [5] = 255, [8] = 1 };

        WANT(mdl_execute(&disk, 0, read, 10, NULL, 0, data_in, sizeof data_in, &reply) == MDL_OK);
        WANT(reply.status == MDL_GOOD && data_in[0] == pieces[piece]);
    }
    mdl_free(&disk);
    end_memory_file(&left);
}

int main(void)
{
    static const uint8_t ready[6];
    mdl_disk disk = MDL_NONE;
    struct memory it;
    uint64_t seed = 5;
    int at;

    begin_memory_file(&it, NULL, room, sizeof room);
    it.device.exchange = count_exchange;
    WANT(mdl_open_device(&disk, &it.device, NULL, 0, MDL_PROFILE_EXTENDED, USED, USED, NULL, NULL) == MDL_OK);
    WANT(mdl_execute(&disk, 0, ready, 6, NULL, 0, NULL, 0, &reply) == MDL_OK);
    for (at = 0; at < STEPS && failures < 10; at++) {
        write_piece(&disk, below(&seed, PIECES), (uint8_t)below(&seed, 256), below(&seed, 2));
        make_some(&disk, &it.device, below(&seed, 12));
        if (below(&seed, 100))
            continue;
        mehdalung_flush(&disk);
        make_some(&disk, &it.device, UINT32_MAX);
        WANT(it.file.length <= LONG);
        check_file(&it);
    }
    /* Some drafts were given up. */
    WANT(exchanges > 3 && it.drafts > exchanges);
    mdl_free(&disk);
    end_memory_file(&it);
    return failures != 0;
}
