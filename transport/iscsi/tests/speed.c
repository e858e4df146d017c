/* Measures commands a second over iSCSI:
 *     speed NAME URL [NAME URL ..]
 *
 * Each logical unit has a line: TEST UNIT READY, WRITE(10) of 8 blocks, and READ(10) of the same
 * blocks. One session sends them and waits for each reply, and then eight such sessions at once,
 * with 8 blocks each. Each figure is the best of three measurements of half a second. */
#include <inttypes.h>
#include <stdio.h>
#include <stdlib.h>
#include <sys/wait.h>
#include <time.h>
#include <unistd.h>

#include "session.h"

enum { MOST_SESSIONS = 8, BLOCKS = 8, ROUNDS = 3 };

#define SECOND UINT64_C(1000000000)
#define MEASURED (SECOND / 2)

static const struct request commands[] = {
    { .cdb = { 0x00 }, .cdb_length = 6 },
    { .cdb = { 0x2A, [8] = BLOCKS }, .cdb_length = 10, .direction = DATA_OUT,
      .length = BLOCKS * MDL_BLOCK_LENGTH },
    { .cdb = { 0x28, [8] = BLOCKS }, .cdb_length = 10, .direction = DATA_IN,
      .length = BLOCKS * MDL_BLOCK_LENGTH }
};

static uint64_t now(void)
{
    struct timespec time;

    clock_gettime(CLOCK_MONOTONIC, &time);
    return (uint64_t)time.tv_sec * SECOND + (uint64_t)time.tv_nsec;
}

/* The number of commands of a session that are answered, after a few that report unit attentions.
 * Each session has blocks of its own. */
static uint64_t measure(const char *url, unsigned port, struct request request)
{
    static uint8_t blocks[BLOCKS * MDL_BLOCK_LENGTH];
    static struct answer answer;
    struct session *session = session_open(url, port, port);
    uint64_t count = 0, end;

    if (!session)
        exit(1);
    if (request.direction != NO_DATA)
        request.cdb[5] = (uint8_t)(port * BLOCKS);
    request.data_out = blocks;
    do
        session_execute(session, &commands[0], &answer);
    while (answer.status == MDL_CHECK_CONDITION);
    for (end = now() + MEASURED; now() < end; count++) {
        session_execute(session, &request, &answer);
        if (answer.status != MDL_GOOD)
            exit(1);
    }
    session_log_out(session);
    return count;
}

static uint64_t measure_sessions(const char *url, unsigned sessions, const struct request *request)
{
    uint64_t sum = 0, count;
    unsigned port;
    int ends[2], status;

    if (pipe(ends))
        exit(1);
    for (port = 0; port < sessions; port++)
        if (fork() == 0) {
            count = measure(url, port, *request);
            _exit(write(ends[1], &count, sizeof count) != sizeof count);
        }
    for (port = 0; port < sessions; port++)
        if (wait(&status) < 0 || status)
            exit(1);
    for (port = 0; port < sessions; port++)
        if (read(ends[0], &count, sizeof count) == sizeof count)
            sum += count;
    close(ends[0]);
    close(ends[1]);
    return sum;
}

static uint64_t best(const char *url, unsigned sessions, const struct request *request)
{
    uint64_t most = 0, count;
    int round;

    for (round = 0; round < ROUNDS; round++) {
        count = measure_sessions(url, sessions, request);
        if (count > most)
            most = count;
    }
    return most * SECOND / MEASURED;
}

int main(int count, char **words)
{
    static const unsigned sessions[] = { 1, MOST_SESSIONS };
    unsigned at, command;
    int word;

    printf("%-20s%30s%30s\n", "commands a second", "one session: TUR, WRITE, READ",
           "eight: TUR, WRITE, READ");
    fflush(stdout);
    for (word = 1; word + 1 < count; word += 2) {
        printf("%-20s", words[word]);
        fflush(stdout);
        for (at = 0; at < 2; at++)
            for (command = 0; command < 3; command++) {
                printf("%10" PRIu64, best(words[word + 1], sessions[at], &commands[command]));
                fflush(stdout);
            }
        putchar('\n');
    }
    return 0;
}
