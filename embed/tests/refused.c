/* Memory of disks in files, which it makes in the folder FOLDER: each request is refused in turn, and all
 * that was taken is given back. No command takes memory, whether it writes the file afresh or not.
 *     refused FOLDER */
#define _XOPEN_SOURCE 700
#include <errno.h>
#include <stdio.h>
#include <stdlib.h>
#include <string.h>
#include <sys/stat.h>
#include <unistd.h>

#include "commands.h"
#include "mehdalung.h"

extern void *__libc_malloc(size_t), *__libc_realloc(void *, size_t);
extern void __libc_free(void *);
static unsigned long requests, refused;
static long held; /* blocks of memory that were taken and not given back */

/* Whether this request is refused. */
static int is_refused(void)
{
    if (++requests != refused)
        return 0;
    errno = ENOMEM;
    return 1;
}

void *malloc(size_t size)
{
    void *taken = is_refused() ? NULL : __libc_malloc(size);

    held += taken != NULL;
    return taken;
}

void *realloc(void *old, size_t size)
{
    void *taken = is_refused() ? NULL : __libc_realloc(old, size);

    held += !old && taken;
    return taken;
}

void free(void *old)
{
    held -= old != NULL;
    __libc_free(old);
}

static int failures;
#define WANT(condition) \
    do { \
        if (!(condition)) { \
            failures++; \
            fprintf(stderr, "line %d: not so: %s\n", __LINE__, #condition); \
        } \
    } while (0)

enum { BLOCKS = 65536, POOL = 16384, LARGE = 131072, PIECE = 2048, PIECES = LARGE / PIECE };

static const char name[] = "refused";
static uint8_t room[MDL_LONGEST_CALL], data_in[MDL_BUFFER_LENGTH];
static mdl_reply reply;
static unsigned long drafts;
static size_t drafted, longest; /* bytes of the last draft, and of the longest call for it */

/* A device that forgets all: nobody opens the file again. */
static int write_nowhere(void *context, uint64_t at, const uint8_t *bytes, size_t length)
{
    (void)context, (void)at, (void)bytes, (void)length;
    return 0;
}

static int cut_nothing(void *context, uint64_t length)
{
    (void)context, (void)length;
    return 0;
}

static int do_nothing(void *context)
{
    (void)context;
    return 0;
}

static int begin_draft(void *context)
{
    (void)context;
    drafts++;
    drafted = 0;
    return 0;
}

static int write_no_draft(void *context, const uint8_t *bytes, size_t length)
{
    (void)context, (void)bytes;
    drafted += length;
    longest = length > longest ? length : longest;
    return 0;
}

static mdl_device device = { NULL, write_nowhere, cut_nothing, do_nothing, begin_draft, write_no_draft,
                             do_nothing, NULL, room, sizeof room };

/* Refuses each request of mdl_open in turn. The calls after it find the file as it was. */
static void refuse_opening(void)
{
    const long held_before = held;
    mdl_disk disk = MDL_NONE;
    struct stat before, after = { 0 };
    mdl_error error;
    unsigned long count = 0;

    WANT(stat(name, &before) == 0);
    do {
        requests = 0;
        refused = ++count;
        error = mdl_open(&disk, name, MDL_PROFILE_EXTENDED, BLOCKS, POOL, NULL, NULL);
        refused = 0;
        WANT(error == MDL_OUT_OF_MEMORY ? requests >= count && !disk.target : requests == count - 1);
        WANT(error == MDL_OUT_OF_MEMORY ? held == held_before : error == MDL_OK);
        WANT(!error || (stat(name, &after) == 0 && after.st_size == before.st_size));
    } while (error == MDL_OUT_OF_MEMORY && count < 1000);
    WANT(count > 5);
    WANT(mdl_close(&disk) == MDL_OK && held == held_before);
}

/* Refuses each request of mdl_open for an empty file, and for the disk that it then has. */
static void refuse_openings(void)
{
    FILE *file = fopen(name, "wb");

    WANT(file && fclose(file) == 0);
    refuse_opening();
    refuse_opening();
}

/* Commands and happenings of any kind take no memory, and give none back. */
static void take_no_memory(void)
{
    mdl_disk disk = MDL_NONE;
    uint64_t seed = 3;
    struct command c;
    long held_before;
    int at;

    drafts = 0;
    WANT(!mdl_open_device(&disk, &device, NULL, 0, MDL_PROFILE_EXTENDED, 4096, 16, NULL, NULL));
    held_before = held;
    requests = 0;
    for (at = 0; at < 3000; at++) {
        next_event(MDL_PROFILE_EXTENDED, &c, &seed);
        if (c.is_happening)
            WANT(mdl_happen(&disk, &c.happening) == MDL_OK);
        else
            WANT(mdl_execute(&disk, c.initiator, c.cdb, c.cdb_length, c.data_out, c.data_out_length,
                             data_in, sizeof data_in, &reply) == MDL_OK);
    }
    WANT(drafts == 1 && requests == 0 && held == held_before);
    mdl_free(&disk);
}

/* WRITE(10) of a piece of the disk, with FUA. */
static void write_piece(mdl_disk *disk, unsigned long piece)
{
    static const uint8_t blocks[PIECE * MDL_BLOCK_LENGTH] = { 1 };
    const unsigned long lba = piece % PIECES * PIECE;
    const uint8_t cdb[10] = { 0x2A, 0x08, [3] = (uint8_t)(lba >> 16), [4] = (uint8_t)(lba >> 8),
                              [7] = PIECE >> 8 };

    WANT(mdl_execute(disk, 0, cdb, sizeof cdb, blocks, sizeof blocks, data_in, sizeof data_in, &reply)
         == MDL_OK);
    WANT(reply.status == MDL_GOOD);
}

/* A disk of 64 MiB is written over until its file is long, and is written afresh part by part. No command
 * takes memory for it: the library has memory for the calls of one batch, and no more calls wait at
 * once. */
static void write_afresh(void)
{
    static const uint8_t ready[6];
    mdl_disk disk = MDL_NONE;
    unsigned long piece = 0;
    long held_before;

    drafts = 0;
    WANT(!mdl_open_device(&disk, &device, NULL, 0, MDL_PROFILE_EXTENDED, LARGE, LARGE, NULL, NULL));
    WANT(mdl_execute(&disk, 0, ready, 6, NULL, 0, data_in, sizeof data_in, &reply) == MDL_OK);
    held_before = held;
    requests = 0;
    while (drafts < 3 && piece < 1000)
        write_piece(&disk, piece++);
    WANT(drafts == 3 && piece > 3 * PIECES);
    WANT(drafted > (64 << 20) && drafted < (72 << 20) && longest < (5 << 20));
    WANT(requests == 0 && held == held_before);
    WANT(mdl_flush(&disk) == MDL_OK && drafts == 3 && requests == 0);
    mdl_free(&disk);
}

int main(int count, char **words)
{
    if (count != 2 || chdir(words[1]))
        return 2;
    refuse_openings();
    take_no_memory();
    write_afresh();
    return failures != 0;
}
