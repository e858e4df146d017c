/* Commands with less data-out than their blocks need, on a disk of each profile: what each answers, and
 * which blocks it has written. */
#include <stdio.h>
#include <string.h>

#include "mehdalung.h"

static int failures;
#define WANT(condition, number) \
    do { \
        if (!(condition)) { \
            failures++; \
            fprintf(stderr, "CDB %d: not so: %s\n", (int)(number), #condition); \
        } \
    } while (0)

enum { BLOCKS = 64, POOL = 8, LENGTH = MDL_BLOCK_LENGTH, FILLED = 0x5A };
/* A sense key with an additional sense code and its qualifier. */
enum { DATA_PHASE_ERROR = 0x0B4B00, INFORMATION_UNIT = 0x050E03, FIELD_IN_CDB = 0x052400,
       OUT_OF_RANGE = 0x052100, MISCOMPARE = 0x0E1D00 };

static mdl_disk disk = MDL_NONE;
static uint8_t data_in[MDL_BUFFER_LENGTH], filled[3 * LENGTH];
static mdl_reply reply;

/* Makes a disk anew. No unit attention is pending for its initiator 0. */
static void make(uint32_t profile)
{
    mdl_free(&disk);
    WANT(mdl_make_with_profile(&disk, profile, BLOCKS, POOL, NULL) == MDL_OK, -1);
    WANT(mdl_forget(&disk, 0) == MDL_OK, -1);
}

/* Executes a command with the first bytes of `filled`. Returns 0 for GOOD, or its sense key and code. */
static int answer(const uint8_t *cdb, size_t length, size_t bytes)
{
    WANT(mdl_execute(&disk, 0, cdb, length, filled, bytes, data_in, sizeof data_in, &reply)
         == MDL_OK, cdb[0]);
    return reply.status == MDL_GOOD ? 0
                                    : (reply.sense[2] & 15) << 16 | reply.sense[12] << 8 | reply.sense[13];
}

/* How many of the two blocks from 4 on are wholly filled. Each other one has to have zeros. */
static size_t written(void)
{
    static const uint8_t read[10] = { 0x28, [5] = 4, [8] = 2 }, zeros[LENGTH];
    size_t count = 0;

    WANT(answer(read, sizeof read, 0) == 0 && reply.data_in_length == 2 * LENGTH, read[0]);
    while (count < 2 && !memcmp(data_in + count * LENGTH, filled, LENGTH))
        count++;
    WANT(count == 2 || !memcmp(data_in + LENGTH, zeros, LENGTH), read[0]);
    WANT(count >= 1 || !memcmp(data_in, zeros, LENGTH), read[0]);
    return count;
}

/* Each writes two blocks from block 4 on, or compares them. A base disk has the first three. */
static const struct { uint8_t cdb[16], length, compares; } of_two_blocks[] = {
    { { 0x0A, [3] = 4, [4] = 2 }, 6, 0 },          /* WRITE(6) */
    { { 0x2A, [5] = 4, [8] = 2 }, 10, 0 },         /* WRITE(10) */
    { { 0x8A, [9] = 4, [13] = 2 }, 16, 0 },        /* WRITE(16) */
    { { 0xAA, [5] = 4, [9] = 2 }, 12, 0 },         /* WRITE(12) */
    { { 0x2E, [5] = 4, [8] = 2 }, 10, 0 },         /* WRITE AND VERIFY(10) */
    { { 0xAE, 0x02, [5] = 4, [9] = 2 }, 12, 0 },   /* WRITE AND VERIFY(12), BYTCHK 01b */
    { { 0x8E, [9] = 4, [13] = 2 }, 16, 0 },        /* WRITE AND VERIFY(16) */
    { { 0x8B, [9] = 4, [13] = 2 }, 16, 0 },        /* ORWRITE */
    { { 0x2F, 0x02, [5] = 4, [8] = 2 }, 10, 1 },   /* VERIFY(10), BYTCHK 01b */
    { { 0xAF, 0x02, [5] = 4, [9] = 2 }, 12, 1 },   /* VERIFY(12) */
    { { 0x8F, 0x02, [9] = 4, [13] = 2 }, 16, 1 },  /* VERIFY(16) */
};
enum { OF_EACH_PROFILE = 3, COMMANDS = sizeof of_two_blocks / sizeof *of_two_blocks };

/* Lengths of data-out, with the whole blocks that each has. */
static const struct { size_t bytes, blocks; } lengths[] = {
    { 0, 0 }, { 1, 0 }, { 200, 0 }, { 511, 0 }, { 512, 1 }, { 513, 1 }, { 1023, 1 }, { 1024, 2 },
    { 1025, 2 }, { 1536, 2 },
};
enum { LENGTHS = sizeof lengths / sizeof *lengths };

/* The disk of a profile refuses too little data-out with a code, or goes over whole blocks if that is
 * 0. Then a VERIFY finds that the first block, of zeros, differs. */
static void send_each(uint32_t profile, int commands, int refused)
{
    size_t of;
    int at, is_short, differs;

    for (at = 0; at < commands; at++)
        for (of = 0; of < LENGTHS; of++) {
            make(profile);
            is_short = lengths[of].bytes < 2 * LENGTH;
            differs = of_two_blocks[at].compares && lengths[of].blocks > 0;
            WANT(answer(of_two_blocks[at].cdb, of_two_blocks[at].length, lengths[of].bytes)
                 == (is_short && refused ? refused : differs ? MISCOMPARE : 0), at);
            WANT(reply.data_out_length == 2 * LENGTH, at);
            WANT(written() == (is_short && refused ? 0
                               : of_two_blocks[at].compares ? 0 : lengths[of].blocks), at);
        }
}

/* A block that the CDB names is past the last one. That refuses the command, however little data-out
 * there is. INFORMATION is the first such address. */
static void name_a_missing_block(void)
{
    static const uint8_t write[10] = { 0x2A, [5] = BLOCKS - 1, [8] = 2 };
    static const uint8_t read[10] = { 0x28, [5] = BLOCKS - 1, [8] = 1 };
    static const uint8_t verify[16] = { 0x8F, 0x02, [9] = BLOCKS - 1, [13] = 2 };
    size_t of;

    make(MDL_PROFILE_EXTENDED_CUT);
    for (of = 0; of < LENGTHS; of++) {
        WANT(answer(write, sizeof write, lengths[of].bytes) == OUT_OF_RANGE, write[0]);
        WANT(reply.sense[0] == 0xF0 && reply.sense[6] == BLOCKS, write[0]);
        WANT(answer(verify, sizeof verify, lengths[of].bytes) == OUT_OF_RANGE, verify[0]);
    }
    WANT(answer(read, sizeof read, 0) == 0 && data_in[0] == 0, read[0]);
}

/* These are refused as a disk of the extended profile refuses them. */
static const struct { uint8_t cdb[16], length; uint16_t bytes; int refused; } refused[] = {
    { { 0x9C, [9] = 4, [13] = 2 }, 16, LENGTH, INFORMATION_UNIT },      /* WRITE ATOMIC */
    { { 0x89, [9] = 4, [13] = 1 }, 16, LENGTH, FIELD_IN_CDB },          /* COMPARE AND WRITE */
    { { 0x41, [5] = 4, [8] = 2 }, 10, 200, FIELD_IN_CDB },              /* WRITE SAME(10) */
    { { 0x93, [9] = 4, [13] = 2 }, 16, 0, FIELD_IN_CDB },               /* WRITE SAME(16) */
    { { 0x2F, 0x06, [5] = 4, [8] = 2 }, 10, 511, INFORMATION_UNIT },    /* VERIFY(10), BYTCHK 11b */
    { { 0x42, [8] = 24 }, 10, 23, INFORMATION_UNIT },                   /* UNMAP */
    { { 0x15, 0x10, [4] = 16 }, 6, 15, INFORMATION_UNIT },              /* MODE SELECT(6) */
    { { 0x5F, [8] = 24 }, 10, 23, INFORMATION_UNIT },                   /* PERSISTENT RESERVE OUT */
    { { 0x04, 0x10 }, 6, 3, INFORMATION_UNIT },                         /* FORMAT UNIT */
};

static void refuse_others(void)
{
    size_t at;

    for (at = 0; at < sizeof refused / sizeof *refused; at++) {
        make(MDL_PROFILE_EXTENDED_CUT);
        WANT(answer(refused[at].cdb, refused[at].length, refused[at].bytes) == refused[at].refused,
             refused[at].cdb[0]);
        WANT(written() == 0, refused[at].cdb[0]);
    }
}

int main(void)
{
    memset(filled, FILLED, sizeof filled);
    send_each(MDL_PROFILE_BASE, OF_EACH_PROFILE, DATA_PHASE_ERROR);
    send_each(MDL_PROFILE_EXTENDED, COMMANDS, INFORMATION_UNIT);
    send_each(MDL_PROFILE_EXTENDED_512E, COMMANDS, INFORMATION_UNIT);
    send_each(MDL_PROFILE_EXTENDED_CUT, COMMANDS, 0);
    name_a_missing_block();
    refuse_others();
    mdl_free(&disk);
    return failures != 0;
}
