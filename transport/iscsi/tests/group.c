/* Writes with 16 commands under way, and finds out what a disk has kept of that.
 *     group write URL FILE SECONDS
 *     group check URL FILE
 *
 * A session writes 16 blocks, again and again, each time with the next number. Each block has a command of
 * its own under way. It ends when the time is over, when the session is lost, or when each block has had a
 * write that failed: then its status is 3. A line of FILE has the number of the last write of a block
 * that was answered with GOOD, and of the last one that was sent. If there is a FILE, the numbers go on from
 * there. `check` reads the blocks: each has the former, or a later one up to the latter, and is not torn. */
#include <inttypes.h>
#include <stdio.h>
#include <stdlib.h>
#include <string.h>
#include <time.h>

#include "session.h"

enum { BLOCKS = 16, SOME_FAILED = 3 };

struct block {
    uint32_t number; /* its address */
    uint32_t answered, sent;
    int has_failed;
    uint8_t data[MDL_BLOCK_LENGTH];
};

static struct session *session;
static struct block blocks[BLOCKS];
static unsigned under_way;
static time_t end;

static int read_numbers(const char *path)
{
    FILE *file = fopen(path, "r");
    int at, is_read = 1;

    for (at = 0; at < BLOCKS; at++)
        blocks[at].number = (uint32_t)at;
    if (!file)
        return 0;
    for (at = 0; at < BLOCKS; at++)
        is_read &= fscanf(file, "%" SCNu32 "%" SCNu32, &blocks[at].answered, &blocks[at].sent) == 2;
    fclose(file);
    return is_read;
}

static int write_numbers(const char *path)
{
    FILE *file = fopen(path, "w");
    int at;

    if (!file)
        return 1;
    for (at = 0; at < BLOCKS; at++)
        fprintf(file, "%" PRIu32 " %" PRIu32 "\n", blocks[at].answered, blocks[at].sent);
    return fclose(file) != 0;
}

static void receive(int status, void *context);

static void send_next(struct block *block)
{
    const struct request request = { .cdb = { 0x2A, [5] = (uint8_t)block->number, [8] = 1 },
                                     .cdb_length = 10, .direction = DATA_OUT,
                                     .length = sizeof block->data, .data_out = block->data };
    size_t at;

    block->sent++;
    for (at = 0; at < sizeof block->data; at += sizeof block->sent)
        memcpy(block->data + at, &block->sent, sizeof block->sent);
    if (!session_send(session, &request, NULL, receive, block))
        under_way++;
}

/* A lost session answers with a status that is none of SCSI. */
static void receive(int status, void *context)
{
    struct block *block = context;

    under_way--;
    if (status == MDL_GOOD)
        block->answered = block->sent;
    block->has_failed = status != MDL_GOOD;
    if (!block->has_failed && time(NULL) < end)
        send_next(block);
}

/* The first command reports the unit attention of a disk that was opened. */
static int begin(const char *url)
{
    static const uint8_t test_unit_ready[6];
    static struct answer answer;
    const struct request ready = request_of(test_unit_ready, sizeof test_unit_ready);

    session = session_open(url, 0, 0);
    if (!session)
        return 0;
    session_execute(session, &ready, &answer);
    session_execute(session, &ready, &answer);
    return 1;
}

static int write_blocks(void)
{
    unsigned failed = 0;
    int at, is_lost = 0;

    for (at = 0; at < BLOCKS; at++)
        send_next(&blocks[at]);
    while (under_way > 0 && !is_lost)
        is_lost = session_serve(session);
    for (at = 0; at < BLOCKS; at++)
        failed += (unsigned)blocks[at].has_failed;
    return !is_lost && failed == BLOCKS ? SOME_FAILED : 0;
}

/* Returns 1 if a block is not as it has to be, and prints it. */
static int is_wrong(const struct block *block, const uint8_t *data)
{
    uint32_t found, other;
    size_t at;

    memcpy(&found, data, sizeof found);
    for (at = 0; at < MDL_BLOCK_LENGTH; at += sizeof other) {
        memcpy(&other, data + at, sizeof other);
        if (other != found) {
            printf("block %" PRIu32 " is torn\n", block->number);
            return 1;
        }
    }
    if (found >= block->answered && found <= block->sent)
        return 0;
    printf("block %" PRIu32 " has write %" PRIu32 ", and not one of %" PRIu32 " to %" PRIu32 "\n",
           block->number, found, block->answered, block->sent);
    return 1;
}

/* From then on the disk's numbers are the last ones, too. */
static int check_blocks(void)
{
    static const uint8_t cdb[10] = { 0x28, [8] = BLOCKS };
    static struct answer answer;
    struct request request = request_of(cdb, sizeof cdb);
    int at, wrong = 0;

    request.direction = DATA_IN;
    request.length = BLOCKS * MDL_BLOCK_LENGTH;
    session_execute(session, &request, &answer);
    if (answer.status != MDL_GOOD)
        return 1;
    for (at = 0; at < BLOCKS; at++)
        wrong |= is_wrong(&blocks[at], answer.data_in + at * MDL_BLOCK_LENGTH);
    return wrong;
}

int main(int count, char **words)
{
    int result = 99, has_file;

    if (count < 4 || (has_file = read_numbers(words[3]), !begin(words[2])))
        return 99;
    if (count == 5 && strcmp(words[1], "write") == 0) {
        end = time(NULL) + atoi(words[4]);
        result = write_blocks();
        if (write_numbers(words[3]))
            result = 99;
    } else if (count == 4 && has_file && strcmp(words[1], "check") == 0) {
        result = check_blocks();
    }
    session_drop(session);
    return result;
}
