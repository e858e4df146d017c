/* Buffers for data-in of every length: what each command asks for, and that a command with a shorter
 * buffer changes nothing. Random commands with the shortest buffer that serves have the same replies
 * as with the longest. */
#include <stdio.h>
#include <string.h>

#include "commands.h"
#include "mehdalung.h"

static int failures;
#define WANT(condition) \
    do { \
        if (!(condition)) { \
            failures++; \
            fprintf(stderr, "line %d: not so: %s\n", __LINE__, #condition); \
        } \
    } while (0)

enum { GUARD = 0xEE };

static mdl_disk disk = MDL_NONE, other = MDL_NONE;
static uint8_t data_in[MDL_BUFFER_LENGTH + 1], of_other[MDL_BUFFER_LENGTH];
static mdl_reply reply, before;

/* The bytes of the buffer from one on are as they were. */
static int is_untouched(size_t from)
{
    for (; from < sizeof data_in; from++)
        if (data_in[from] != GUARD)
            return 0;
    return 1;
}

static mdl_error execute(const uint8_t *cdb, size_t length, size_t room)
{
    static const uint8_t zeros[MDL_BLOCK_LENGTH];

    memset(data_in, GUARD, sizeof data_in);
    return mdl_execute(&disk, 0, cdb, length, zeros, sizeof zeros, room ? data_in : NULL, room, &reply);
}

/* Commands, and the bytes that each asks for. */
static const struct {
    uint8_t cdb[MDL_CDB_LENGTH];
    uint8_t length;
    size_t needed;
    uint8_t status;
} commands[] = {
    { { 0x00 }, 6, 0, MDL_GOOD },                                 /* TEST UNIT READY */
    { { 0x12, 0, 0, 0, 36 }, 6, 36, MDL_GOOD },                   /* INQUIRY */
    { { 0x12, 0, 0, 1, 0 }, 6, 76, MDL_GOOD },                    /* and more than it has */
    { { 0x12, 0, 0, 0, 5 }, 6, 5, MDL_GOOD },                     /* and less */
    { { 0x12, 1, 0xFF, 0, 36 }, 6, 0, MDL_CHECK_CONDITION },      /* a page that is not there */
    { { 0x03, 0, 0, 0, 17 }, 6, 17, MDL_GOOD },                   /* REQUEST SENSE */
    { { 0x03, 0, 0, 0, 252 }, 6, 18, MDL_GOOD },
    { { 0x1A, 0, 0x3F, 0, 255 }, 6, 112, MDL_GOOD },              /* MODE SENSE(6) */
    { { 0x5A, 0x10, 0x3F, [7] = 1, 2 }, 10, 112, MDL_GOOD },      /* MODE SENSE(10) */
    { { 0x1A, 0, 0x3E, 0, 255 }, 6, 112, MDL_CHECK_CONDITION },   /* refused as it is executed */
    { { 0x25 }, 10, 8, MDL_GOOD },                                /* READ CAPACITY(10) */
    { { 0x9E, 0x10, [13] = 12 }, 16, 12, MDL_GOOD },              /* READ CAPACITY(16) */
    { { 0x9E, 0x10, [12] = 1 }, 16, 32, MDL_GOOD },
    { { 0x08, 0, 0, 0, 2 }, 6, 1024, MDL_GOOD },                  /* READ(6) */
    { { 0x08, 0, 0, 0, 0 }, 6, 131072, MDL_GOOD },                /* of 256 blocks */
    { { 0x28, [8] = 0 }, 10, 0, MDL_GOOD },                       /* READ(10) of no block */
    { { 0x28, [8] = 3 }, 10, 1536, MDL_GOOD },
    { { 0x28, [7] = 1, 1 }, 10, 0, MDL_CHECK_CONDITION },         /* of 257 blocks */
    { { 0x28, [2] = 1, [8] = 1 }, 10, 0, MDL_CHECK_CONDITION },   /* past the last block */
    { { 0x88, [13] = 1 }, 16, 512, MDL_GOOD },                    /* READ(16) */
    { { 0x2A, [8] = 1 }, 10, 0, MDL_GOOD },                       /* WRITE(10) */
    { { 0x9E, 0x12, [13] = 24 }, 16, 24, MDL_GOOD },              /* GET LBA STATUS */
    { { 0x9E, 0x12, [10] = 1 }, 16, 8200, MDL_GOOD },             /* and more than it has */
    { { 0x5E, 0, [8] = 255 }, 10, 255, MDL_GOOD },                /* READ KEYS */
    { { 0x5E, 3, [7] = 1 }, 10, 256, MDL_GOOD },                  /* READ FULL STATUS */
    { { 0x5E, 3, [7] = 12, 8 }, 10, 3080, MDL_GOOD },             /* as long as it can be */
    { { 0x5E, 3, [7] = 255, 255 }, 10, 3080, MDL_GOOD },          /* and more than it has */
    { { 0xFF }, 10, 0, MDL_CHECK_CONDITION },                     /* no command */
    { { 0x00 }, 0, 0, MDL_CHECK_CONDITION },                      /* no byte */
};

static void ask_for_each(void)
{
    size_t at, needed;

    for (at = 0; at < sizeof commands / sizeof *commands; at++) {
        needed = commands[at].needed;
        memset(&reply, 0xDD, sizeof reply);
        memcpy(&before, &reply, sizeof reply);
        if (needed > 0) {
            WANT(execute(commands[at].cdb, commands[at].length, 0) == MDL_BUFFER_TOO_SHORT);
            WANT(execute(commands[at].cdb, commands[at].length, needed - 1) == MDL_BUFFER_TOO_SHORT);
            WANT(is_untouched(0) && memcmp(&reply, &before, sizeof reply) == 0);
        }
        WANT(execute(commands[at].cdb, commands[at].length, needed) == MDL_OK);
        WANT(reply.status == commands[at].status && reply.data_in_length <= needed);
        WANT(is_untouched(reply.data_in_length));
    }
}

/* A unit attention that blocks a READ asks for no byte, and is not lost by one that REQUEST SENSE has
 * no room for. */
static void keep_attention(void)
{
    static const uint8_t read[10] = { 0x28, [8] = 1 }, sense[6] = { 0x03, 0, 0, 0, 18 };

    WANT(execute(sense, sizeof sense, 17) == MDL_BUFFER_TOO_SHORT);
    WANT(execute(read, sizeof read, 0) == MDL_OK && reply.status == MDL_CHECK_CONDITION);
    WANT(execute(read, sizeof read, 511) == MDL_BUFFER_TOO_SHORT);
    WANT(execute(read, sizeof read, 512) == MDL_OK && reply.status == MDL_GOOD);
}

static void serve_at_random(void)
{
    unsigned long short_ones = 0;
    struct command c;
    uint64_t seed = 3;
    mdl_reply reply_of_other;
    mdl_error error;
    int number;

    memset(&reply_of_other, 0, sizeof reply_of_other); /* the bytes between its fields, too */
    for (number = 0; number < 10000; number++) {
        next_command(&c, &seed);
        if (c.is_happening) {
            WANT(mdl_power_cycle(&disk) == MDL_OK && mdl_power_cycle(&other) == MDL_OK);
            continue;
        }
        error = mdl_execute(&disk, c.initiator, c.cdb, c.cdb_length, c.data_out, c.data_out_length,
                            NULL, 0, &reply);
        short_ones += error == MDL_BUFFER_TOO_SHORT;
        if (error == MDL_BUFFER_TOO_SHORT)
            error = mdl_execute(&disk, c.initiator, c.cdb, c.cdb_length, c.data_out,
                                c.data_out_length, data_in, MDL_BUFFER_LENGTH, &reply);
        WANT(error == MDL_OK);
        WANT(mdl_execute(&other, c.initiator, c.cdb, c.cdb_length, c.data_out, c.data_out_length,
                         of_other, sizeof of_other, &reply_of_other) == MDL_OK);
        WANT(memcmp(&reply, &reply_of_other, sizeof reply) == 0);
        WANT(memcmp(data_in, of_other, reply.data_in_length) == 0);
    }
    WANT(short_ones > 1000 && short_ones < 9000);
}

int main(void)
{
    WANT(mdl_make(&disk, 4096, 16, NULL) == MDL_OK);
    keep_attention();
    ask_for_each();
    mdl_free(&disk);
    WANT(mdl_make(&disk, 4096, 16, NULL) == MDL_OK && mdl_make(&other, 4096, 16, NULL) == MDL_OK);
    memset(&reply, 0, sizeof reply);
    serve_at_random();
    mdl_free(&disk);
    mdl_free(&other);
    return failures != 0;
}
