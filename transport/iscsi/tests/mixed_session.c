/* A session of tests/mixed. See mixed.c. */
#include "mixed.h"

#include <stdlib.h>

enum { DEPTH = 8, MILLISECONDS_TO_SERVE = 20, ROUNDS_OF_OLD_SESSION = DEPTH + 8 };

/* A command that has no reply after this time may never get one. */
#define SUSPICIOUS (100 * MILLISECOND)

static const char *url;
static unsigned self, depth, under_way;
static const struct shared *all;
static struct record *own;
static struct session *session;
static struct slot slots[DEPTH];
static uint64_t next_disturbance;

struct session *log_in(const char *address, unsigned port)
{
    struct session *opened = session_open(address, port / 2, port % 2);

    if (!opened)
        fail("no login");
    return opened;
}

static void ping(void)
{
    if (session_ping(session))
        fail("no reply to a NOP-Out");
}

static void reset(enum reset kind)
{
    uint64_t begin = now();

    if (session_reset(session, kind) != 0)
        fail("a reset is not done");
    own->reset = (struct change){ begin, now(), 0 };
    own->resets++;
}

/* Ends all commands that are under way, without answers. The target has ended them, too. */
static void end_without_answers(void)
{
    int at;

    for (at = 0; at < DEPTH; at++)
        if (slots[at].command) {
            session_forget(session, slots[at].command);
            slots[at].command = NULL;
            end_command(&slots[at], NULL);
        }
    under_way = 0;
}

/* Ends the session, and logs in as the same port. In each round tgtd reads one command of each connection. So
 * after some rounds it has read all that it got from the old session. */
static void log_in_again(void)
{
    struct session *old = session;
    uint32_t how = choose(3), round;
    struct command *left[DEPTH];
    int at;

    for (at = 0; at < DEPTH; at++)
        left[at] = slots[at].command;
    for (at = 0; at < DEPTH; at++)
        if (left[at])
            session_forget(old, left[at]);
    if (how == 0)
        session = log_in(url, self);
    if (how == 1)
        session_log_out(old);
    else
        session_drop(old);
    if (how != 0)
        session = log_in(url, self);
    for (round = 0; round < ROUNDS_OF_OLD_SESSION; round++)
        ping();
    for (at = 0; at < DEPTH; at++)
        if (left[at]) {
            slots[at].command = NULL;
            end_command(&slots[at], NULL);
        }
    under_way = 0;
    own->cuts++;
}

/* Takes the answers that have come. */
static void collect(void)
{
    const struct answer *answer;
    int at;

    for (at = 0; at < DEPTH; at++) {
        answer = slots[at].command ? session_answer(slots[at].command) : NULL;
        if (!answer)
            continue;
        if (answer->status == NO_REPLY)
            fail("a command was lost");
        end_command(&slots[at], answer);
        session_forget(session, slots[at].command);
        slots[at].command = NULL;
        under_way--;
    }
}

static void abort_each(void)
{
    int at, response;

    for (at = 0; at < DEPTH; at++)
        if (slots[at].command) {
            response = session_abort(session, slots[at].command);
            if (response != 0 && response != 1)
                fail("an ABORT TASK is not done");
        }
}

/* Finds out which commands never get a reply: tgtd replies to a NOP-Out after all commands before it, and to
 * another one in case that it had to ask for data-out. Then it ends them in one of four ways. */
static void give_up(void)
{
    ping();
    ping();
    collect();
    if (under_way == 0)
        return;
    own->missing += under_way;
    if (own->missing > all->armed[self])
        fail("a command has no reply, and no fault was armed for that");
    switch (choose(4)) {
    case 0: reset(LOGICAL_UNIT_RESET); break;
    case 1: abort_each(); break;
    case 2:
        if (session_abort_all(session) != 0)
            fail("an ABORT TASK SET is not done");
        break;
    default: log_in_again(); return;
    }
    end_without_answers();
}

static int has_suspicious(void)
{
    uint64_t time = now();
    int at;

    for (at = 0; at < DEPTH; at++)
        if (slots[at].command && time - slots[at].begin > SUSPICIOUS)
            return 1;
    return 0;
}

/* Serves the session for a while. */
static void serve(void)
{
    if (session_serve_for(session, MILLISECONDS_TO_SERVE))
        fail("the session is lost");
    collect();
    if (has_suspicious())
        give_up();
}

static void start_commands(void)
{
    struct request request;
    int at;

    for (at = 0; at < DEPTH && under_way < depth; at++) {
        if (slots[at].command)
            continue;
        if (!begin_command(&slots[at], &request))
            return;
        slots[at].command = session_begin(session, &request, 0);
        if (!slots[at].command)
            fail("a command can't be sent");
        under_way++;
    }
}

/* Resets something, or cuts the session, now and then. */
static void disturb(void)
{
    if (now() < next_disturbance)
        return;
    next_disturbance = now() + (50 + choose(1000)) * MILLISECOND;
    switch (choose(8)) {
    case 0: reset(LOGICAL_UNIT_RESET); break;
    case 1: reset(choose(2) ? TARGET_WARM_RESET : TARGET_COLD_RESET); break;
    default: log_in_again(); break;
    }
}

void run_session(const char *address, unsigned port, struct shared *shared, int is_extended, uint64_t length)
{
    url = address;
    self = port;
    all = shared;
    own = &shared->records[port];
    begin_kinds(port, own, is_extended, length / (EVENTS / 4));
    session = log_in(url, self);
    while (!all->is_calm) {
        if (under_way == 0 || choose(64) == 0)
            depth = 1 + choose(DEPTH);
        start_commands();
        serve();
        disturb();
    }
    while (under_way > 0)
        serve();
    session_log_out(session);
    exit(0);
}
