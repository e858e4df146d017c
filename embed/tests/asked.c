/* How many bytes of data-out each CDB asks for: by SPC-4 and SBC-3, executed or refused, on disks of
 * each profile, with any data-out, and while a fault is armed. */
#include <stdio.h>
#include <string.h>

#include "mehdalung.h"

static int failures;
#define WANT(condition, number) \
    do { \
        if (!(condition)) { \
            failures++; \
            fprintf(stderr, "CDB %d: not so: %s\n", (int)(number), #condition); \
        } \
    } while (0)

enum { BLOCKS = 256, POOL = 8, LONGEST_DATA_OUT = 2 * MDL_BLOCK_LENGTH };

/* CDBs, and the bytes that each asks for on an extended disk. A base disk asks for none where it has
 * no such command. */
static const struct {
    uint8_t cdb[MDL_CDB_LENGTH];
    uint8_t length, is_in_base;
    uint64_t asked;
} cdbs[] = {
    { { 0x00 }, 6, 1, 0 },                                        /* TEST UNIT READY */
    { { 0x28, [8] = 1 }, 10, 1, 0 },                              /* READ(10) */
    { { 0x0A, 0, 0, 0, 2 }, 6, 1, 1024 },                         /* WRITE(6) */
    { { 0x0A, 0, 0, 0, 0 }, 6, 1, 131072 },                       /* of 256 blocks */
    { { 0x2A, [8] = 0 }, 10, 1, 0 },                              /* WRITE(10) of no block */
    { { 0x2A, [8] = 3 }, 10, 1, 1536 },
    { { 0x2A, [7] = 0xFF, 0xFF }, 10, 1, 33553920 },              /* too long */
    { { 0x2A, [2] = 1, [8] = 1 }, 10, 1, 512 },                   /* past the last block */
    { { 0x2A, 0x01, [8] = 1 }, 10, 1, 0 },                        /* with a reserved bit */
    { { 0xAA, [9] = 1 }, 12, 0, 512 },                            /* WRITE(12) */
    { { 0x8A, [13] = 4 }, 16, 1, 2048 },                          /* WRITE(16) */
    { { 0x8A, [10] = 0xFF, 0xFF, 0xFF, 0xFF }, 16, 1, 2199023255040 },
    { { 0x9C, [13] = 2 }, 16, 0, 1024 },                          /* WRITE ATOMIC */
    { { 0x8B, [13] = 2 }, 16, 0, 1024 },                          /* ORWRITE */
    { { 0x2E, [8] = 2 }, 10, 0, 1024 },                           /* WRITE AND VERIFY(10) */
    { { 0x2E, 0x06, [8] = 2 }, 10, 0, 1024 },                     /* with BYTCHK 11b: refused */
    { { 0xAE, 0x02, [9] = 2 }, 12, 0, 1024 },                     /* WRITE AND VERIFY(12) */
    { { 0x8E, [13] = 2 }, 16, 0, 1024 },                          /* WRITE AND VERIFY(16) */
    { { 0x2F, [8] = 2 }, 10, 0, 0 },                              /* VERIFY(10) with BYTCHK 00b */
    { { 0x2F, 0x02, [8] = 2 }, 10, 0, 1024 },                     /* 01b */
    { { 0x2F, 0x04, [8] = 2 }, 10, 0, 0 },                        /* 10b: refused */
    { { 0x2F, 0x06, [8] = 2 }, 10, 0, 512 },                      /* 11b */
    { { 0x2F, 0x06, [8] = 0 }, 10, 0, 0 },                        /* 11b of no block */
    { { 0xAF, 0x02, [9] = 3 }, 12, 0, 1536 },                     /* VERIFY(12) */
    { { 0x8F, 0x06, [13] = 3 }, 16, 0, 512 },                     /* VERIFY(16) */
    { { 0x89, [13] = 1 }, 16, 0, 1024 },                          /* COMPARE AND WRITE */
    { { 0x89, [13] = 255 }, 16, 0, 261120 },
    { { 0x41, [8] = 9 }, 10, 1, 512 },                            /* WRITE SAME(10) */
    { { 0x93, 0x08, [13] = 9 }, 16, 1, 512 },                     /* WRITE SAME(16) with UNMAP */
    { { 0x93, 0x01, [13] = 9 }, 16, 1, 0 },                       /* with NDOB; a base disk refuses it */
    { { 0x42, [8] = 24 }, 10, 1, 24 },                            /* UNMAP */
    { { 0x15, 0x10, [4] = 12 }, 6, 1, 12 },                       /* MODE SELECT(6) */
    { { 0x55, 0x10, [7] = 1, 2 }, 10, 1, 258 },                   /* MODE SELECT(10) */
    { { 0x5F, 0x00, [8] = 24 }, 10, 1, 24 },                      /* PERSISTENT RESERVE OUT */
    { { 0x5F, 0x00, [5] = 1, [8] = 0 }, 10, 1, 16777216 },        /* with a long list */
    { { 0x04 }, 6, 0, 0 },                                        /* FORMAT UNIT without FMTDATA */
    { { 0x04, 0x10 }, 6, 0, 4 },                                  /* with it */
    { { 0x04, 0x30 }, 6, 0, 8 },                                  /* and LONGLIST */
    { { 0x04, 0x20 }, 6, 0, 0 },                                  /* LONGLIST alone */
    { { 0x1D, 0x04 }, 6, 0, 0 },                                  /* SEND DIAGNOSTIC */
    { { 0x2A, [8] = 1 }, 9, 1, 0 },                               /* a CDB that ends early */
    { { 0xFF }, 10, 1, 0 },                                       /* no command */
    { { 0x00 }, 0, 1, 0 },                                        /* no byte */
};

/* Sends each CDB with data-out of every kind of length. */
static void ask_for_each(mdl_disk *disk, int is_extended)
{
    static const size_t lengths[] = { 0, 1, MDL_BLOCK_LENGTH, LONGEST_DATA_OUT };
    static const uint8_t data_out[LONGEST_DATA_OUT];
    static uint8_t data_in[MDL_BUFFER_LENGTH];
    uint64_t asked;
    mdl_reply reply;
    size_t at, of;

    for (at = 0; at < sizeof cdbs / sizeof *cdbs; at++)
        for (of = 0; of < sizeof lengths / sizeof *lengths; of++) {
            asked = is_extended || cdbs[at].is_in_base ? cdbs[at].asked : 0;
            memset(&reply, 0xDD, sizeof reply);
            WANT(mdl_execute(disk, 1, cdbs[at].cdb, cdbs[at].length, data_out, lengths[of], data_in,
                             sizeof data_in, &reply) == MDL_OK, at);
            WANT(reply.data_out_length == asked, at);
        }
}

/* A fault on arrival meets each command, so nothing is executed. The replies still say what is asked
 * for. */
static void ask_while_busy(mdl_disk *disk)
{
    static const char *const words = "fault arrival busy times 65535";
    mdl_happening happening;

    WANT(mdl_read_happening(words, &happening) == MDL_OK, -1);
    WANT(mdl_happen(disk, &happening) == MDL_OK, -1);
    ask_for_each(disk, 1);
}

int main(void)
{
    mdl_disk base = MDL_NONE, extended = MDL_NONE, cut = MDL_NONE, of_4096 = MDL_NONE;

    WANT(mdl_make(&base, BLOCKS, POOL, NULL) == MDL_OK, -1);
    WANT(mdl_make_with_profile(&extended, MDL_PROFILE_EXTENDED, BLOCKS, POOL, NULL) == MDL_OK, -1);
    WANT(mdl_make_with_profile(&cut, MDL_PROFILE_EXTENDED_CUT, BLOCKS, POOL, NULL) == MDL_OK, -1);
    WANT(mdl_make_with_profile(&of_4096, MDL_PROFILE_EXTENDED_512E, BLOCKS, POOL, NULL) == MDL_OK, -1);
    ask_for_each(&base, 0);
    ask_for_each(&extended, 1);
    ask_for_each(&cut, 1);
    ask_for_each(&of_4096, 1);
    ask_while_busy(&extended);
    ask_while_busy(&cut);
    mdl_free(&base);
    mdl_free(&extended);
    mdl_free(&cut);
    mdl_free(&of_4096);
    return failures > 0;
}
