/* Tries what comes while commands wait for a flush:
 *     waiting URL PID
 *
 * PID is the target's tgtd, whose disk is in a file without a write cache. The program stops tgtd, sends
 * writes and a task management function, and lets it go on. So tgtd finds all of them at once, and the
 * function comes before the flush. Each write has to be answered before the function. */
#include <signal.h>
#include <stdio.h>
#include <stdlib.h>
#include <string.h>
#include <sys/wait.h>
#include <unistd.h>

#include "session.h"

enum { WRITES = 3 };

enum function { ABORT_FIRST, ABORT_ALL, RESET, WARM_RESET, COLD_RESET, DROP, FUNCTIONS };

static const char *const names[] = { "ABORT TASK", "ABORT TASK SET", "LOGICAL UNIT RESET",
                                     "TARGET WARM RESET", "TARGET COLD RESET", "a lost session" };

static const char *url;
static pid_t tgtd;
static struct answer answer;
static int failures;

static void want(int is_so, enum function function, const char *what)
{
    if (is_so)
        return;
    failures++;
    printf("%s: %s\n", names[function], what);
}

/* The first commands report unit attentions. */
static struct session *open_ready(unsigned port)
{
    static const uint8_t test_unit_ready[6];
    const struct request ready = request_of(test_unit_ready, sizeof test_unit_ready);
    struct session *session = session_open(url, port, port);

    if (!session)
        exit(99);
    do
        session_execute(session, &ready, &answer);
    while (answer.status == MDL_CHECK_CONDITION);
    return session;
}

/* A process that lets tgtd go on, a while after this one has begun to wait for it. */
static pid_t resume_later(void)
{
    pid_t child = fork();

    if (child == 0) {
        usleep(200000);
        kill(tgtd, SIGCONT);
        _exit(0);
    }
    return child;
}

/* The byte that the first block has. */
static int read_byte(struct session *session)
{
    static const uint8_t cdb[10] = { 0x28, [8] = 1 };
    struct request request = request_of(cdb, sizeof cdb);

    request.direction = DATA_IN;
    request.length = MDL_BLOCK_LENGTH;
    session_execute(session, &request, &answer);
    return answer.status == MDL_GOOD ? answer.data_in[0] : -1;
}

static int perform(struct session *session, enum function function, const struct command *first)
{
    switch (function) {
    case ABORT_FIRST: return session_abort(session, first);
    case ABORT_ALL: return session_abort_all(session);
    case RESET: return session_reset(session, LOGICAL_UNIT_RESET);
    case WARM_RESET: return session_reset(session, TARGET_WARM_RESET);
    default: return session_reset(session, TARGET_COLD_RESET);
    }
}

/* Writes the first block a few times, and performs a function before the flush. */
static void try_function(enum function function)
{
    static uint8_t blocks[WRITES][MDL_BLOCK_LENGTH];
    const struct request write = { .cdb = { 0x2A, [8] = 1 }, .cdb_length = 10, .direction = DATA_OUT,
                                   .length = MDL_BLOCK_LENGTH };
    struct session *session = open_ready(0), *other = open_ready(1);
    struct command *commands[WRITES];
    int at, response, last = 0;
    pid_t child;

    kill(tgtd, SIGSTOP);
    for (at = 0; at < WRITES; at++) {
        struct request request = write;

        last = 10 * (int)function + at + 1;
        memset(blocks[at], last, sizeof blocks[at]);
        request.data_out = blocks[at];
        commands[at] = session_begin(session, &request, 0);
        want(commands[at] != NULL, function, "a write can't be sent");
    }
    child = resume_later();
    if (function == DROP) {
        session_drop(session);
        session = NULL;
    } else {
        response = perform(session, function, commands[0]);
        want(response == (function == ABORT_FIRST), function, "it has another response");
        for (at = 0; at < WRITES; at++) {
            want(session_was_first(commands[at])
                     && session_settle(session, commands[at])->status == MDL_GOOD,
                 function, "a write is not answered before it");
            session_forget(session, commands[at]);
        }
    }
    waitpid(child, NULL, 0);
    session_log_out(other);
    other = open_ready(1);
    want(read_byte(other) == last, function, "the last write is not there");
    session_log_out(other);
    session_log_out(session);
}

int main(int count, char **words)
{
    int function;

    if (count != 3 || atoi(words[2]) <= 0)
        return 99;
    url = words[1];
    tgtd = atoi(words[2]);
    for (function = 0; function < FUNCTIONS; function++)
        try_function((enum function)function);
    return failures != 0;
}
