/* Runs eight sessions at once that send commands of many kinds, while faults, resets and power cycles happen:
 *     mixed URL SECONDS HISTORY TARGET
 *
 * TARGET is a command that lets something happen to the disk, as ./target does. The disk is new, and has at
 * least 516 blocks. Each session is a process with up to eight commands under way. It writes blocks of its
 * own, increments counters that all share, reserves, and sets D_SENSE. Now and then it resets the logical
 * unit or the target, or cuts its connection and logs in again. Meanwhile this process arms faults: BUSY,
 * TASK SET FULL, ABORTED COMMAND, MEDIUM ERROR and commands without a reply. It takes the power away, too.
 *
 * The status is 1 if
 *   - a command gets no reply, and no fault was armed for that, or the target does not answer a NOP-Out;
 *   - an answer can't be one of this kind of command;
 *   - a block is not what the last write left, or a write of which nobody knows whether it was executed;
 *   - a counter is not the sum of what the sessions have added to it;
 *   - at the end D_SENSE is not what some order of the commands leaves.
 * HISTORY has the reservation commands for tests/order, as tests/load writes them. A status of 255 says that
 * nobody knows whether the command was executed. ACTION 17 is a power cycle, of INITIATOR 8. */
#include <signal.h>
#include <stdio.h>
#include <stdlib.h>
#include <string.h>
#include <sys/mman.h>
#include <sys/prctl.h>
#include <sys/wait.h>
#include <unistd.h>

#include "mixed.h"
#include "tests/below.h"

enum {
    LEAST_SECONDS = 10, /* until each kind of command and of happening has come */
    SECONDS_TO_END = 60,
    SECONDS_TO_HAPPEN = 20 /* more than target takes, unless tgtd hangs */
};

static struct shared *shared;
static const char *url, *target;
static int is_extended;
static struct session *session;
static struct answer answer;
static uint64_t state = 1;

static void execute(const struct request *request)
{
    session_execute(session, request, &answer);
    if (answer.status == NO_REPLY)
        fail("no reply");
}

/* Logs in as a port, and has its unit attentions reported. */
static void come_back(unsigned port)
{
    static const uint8_t test_unit_ready[6];
    const struct request request = request_of(test_unit_ready, sizeof test_unit_ready);

    session = log_in(url, port);
    do
        execute(&request);
    while (answer.status == MDL_CHECK_CONDITION);
}

/* Returns 1 if TARGET does what the words say. */
static int happen(const char *words)
{
    char command[256];

    snprintf(command, sizeof command, "timeout %d %s %s >/dev/null 2>&1", SECONDS_TO_HAPPEN, target, words);
    shared->happened++;
    return system(command) == 0;
}

static void want(const char *words)
{
    if (!happen(words))
        fail(words);
}

/* A power cycle or a reset, which sets D_SENSE to its saved value. */
static void restart(const char *words, int is_power)
{
    struct event *event = &shared->power_cycles[shared->power_cycle_count];

    if (shared->power_cycle_count == POWER_CYCLES)
        return;
    event->begin = now();
    want(words);
    event->end = now();
    shared->reset = (struct change){ event->begin, event->end, 0 };
    event->action = POWER_CYCLE;
    shared->power_cycle_count += is_power != 0;
}

/* If eight faults are armed, it takes them away. A silent fault counts before it is armed, because it may
 * meet a command at once. */
static void arm(uint32_t kind, unsigned initiator)
{
    static const char *const whats[] = { "busy", "full", "B/47/03", "silent", "silent" };
    char words[128];
    uint32_t lba = below(&state, SESSIONS * OWN_BLOCKS + COUNTERS), count = 1 + below(&state, 3);
    int is_silent = kind == 3 || kind == 4;

    if (kind >= 5) {
        snprintf(words, sizeof words, "fault medium 3/11/00 blocks %u %u%s", lba, count,
                 kind == 5 ? " healed" : "");
    } else if (is_silent) {
        snprintf(words, sizeof words, "fault %s %s to %u times 1", kind == 3 ? "arrival" : "after",
                 whats[kind], initiator);
    } else {
        snprintf(words, sizeof words, "fault arrival %s to %u times %u", whats[kind], initiator, count);
    }
    shared->armed[initiator] += is_silent;
    if (!happen(words)) {
        shared->armed[initiator] -= is_silent;
        want("heal");
    }
}

static void happen_at_random(void)
{
    unsigned initiator = below(&state, SESSIONS);
    uint32_t kind = below(&state, 20);
    char words[32];

    if (kind < 14)
        arm(kind / 2, initiator);
    else if (kind == 14)
        restart("power", 1);
    else if (kind == 15)
        restart(below(&state, 2) ? "reset" : "reset target", 0);
    else if (kind < 18)
        want("heal");
    else {
        snprintf(words, sizeof words, kind == 18 ? "nexus %u" : "attention 2Ah/06h %u", initiator);
        want(words);
    }
}

/* Gives the ports the numbers of the disk's initiators, in their order. Asks whether the disk has COMPARE AND
 * WRITE, by one of no block. */
static void prepare(void)
{
    const struct request compare = { .cdb = { 0x89 }, .cdb_length = 16 };
    unsigned port;

    for (port = 0; port < SESSIONS; port++) {
        come_back(port);
        if (port == 0) {
            execute(&compare);
            is_extended = answer.status == MDL_GOOD;
        }
        session_log_out(session);
    }
}

static int start_sessions(pid_t *children, uint64_t length)
{
    unsigned port;

    for (port = 0; port < SESSIONS; port++) {
        children[port] = fork();
        if (children[port] == 0) {
            prctl(PR_SET_PDEATHSIG, SIGKILL);
            run_session(url, port, shared, is_extended, length);
        }
        if (children[port] < 0)
            return 0;
    }
    return 1;
}

/* Counts the sessions that have ended since the last call. Adds those that failed. */
static int reap(int *failed)
{
    int status, ended = 0;

    while (waitpid(-1, &status, WNOHANG) > 0) {
        ended++;
        *failed += status != 0;
    }
    return ended;
}

/* Lets things happen until the end, and waits for the sessions. Returns how many failed. */
static int run(pid_t *children, uint64_t end)
{
    int left = SESSIONS, failed = 0, at;

    while (now() < end && left == SESSIONS) {
        happen_at_random();
        usleep(20000 + below(&state, 150000));
        left -= reap(&failed);
    }
    want("heal");
    shared->is_calm = 1;
    for (end = now() + SECONDS_TO_END * SECOND; left > 0 && now() < end; usleep(10000))
        left -= reap(&failed);
    if (left > 0)
        fprintf(stderr, "%d sessions hang\n", left);
    for (at = 0; left > 0 && at < SESSIONS; at++)
        kill(children[at], SIGKILL);
    return failed + left;
}

/* READ KEYS, as the last event of a port. */
static void note_keys(unsigned port)
{
    struct record *record = &shared->records[port];
    struct event *event = &record->events[record->event_count++];
    uint8_t list[RESERVATION_LIST];
    struct request request;

    *event = (struct event){ .action = READ_KEYS, .begin = now() };
    request = request_of_event(event, list);
    execute(&request);
    note_answer(event, &answer);
}

/* Logs in as a port that can clear the reservations, and clears them. */
static void come_in(void)
{
    unsigned port = 0;

    come_back(port);
    note_keys(port);
    while (!clear_reservations(session)) {
        session_log_out(session);
        if (++port == SESSIONS)
            fail("reservations can't be cleared");
        come_back(port);
    }
}

static void read_blocks(uint32_t address, uint8_t count)
{
    const struct request request = { .cdb = { 0x28, [4] = (uint8_t)(address >> 8), (uint8_t)address,
                                              [8] = count },
                                     .cdb_length = 10, .direction = DATA_IN,
                                     .length = (size_t)count * MDL_BLOCK_LENGTH };

    execute(&request);
    if (answer.status != MDL_GOOD || answer.data_in_length != request.length)
        fail("the blocks can't be read");
}

/* Returns how many blocks are not as they have to be. */
static int look_at_blocks(void)
{
    unsigned owner, at;
    int wrong = 0;

    for (owner = 0; owner < SESSIONS; owner++) {
        read_blocks(address_of(owner), OWN_BLOCKS);
        for (at = 0; at < OWN_BLOCKS; at++)
            if (!is_as_written(&shared->records[owner].blocks[at], answer.data_in + at * MDL_BLOCK_LENGTH)) {
                printf("block %u of session %u is not what was written\n", at, owner);
                wrong++;
            }
    }
    return wrong;
}

/* The same for counters. Puts the sum of all into `sum`. */
static int look_at_counters(uint64_t *sum)
{
    uint64_t image[MDL_BLOCK_LENGTH / 8], count;
    const struct counter *counter;
    unsigned at, owner;
    int wrong = 0;

    read_blocks(address_of(SESSIONS), COUNTERS);
    for (at = 0; at < COUNTERS; at++) {
        memcpy(image, answer.data_in + at * MDL_BLOCK_LENGTH, sizeof image);
        wrong += total_of(image) == UINT64_MAX;
        *sum += image[0];
        for (owner = 0; owner < SESSIONS; owner++) {
            counter = &shared->records[owner].counters[at];
            count = count_of(image, owner);
            wrong += count != counter->own && !(counter->is_unknown && count == counter->own + 1);
        }
    }
    if (wrong)
        printf("%d counters are not what the sessions have added\n", wrong);
    return wrong;
}

static uint64_t later(uint64_t left, uint64_t right)
{
    return left > right ? left : right;
}

/* Whether a change may be the last one, if the last of all began at a time. */
static int may_be_last(const struct change *change, uint64_t begin, int value)
{
    return change->end >= begin && change->end > 0 && change->value == value;
}

/* The last change may be each that did not end before another one began. MODE SENSE(6) of the Control mode
 * page, without block descriptors, says which value it has left. */
static int look_at_mode(void)
{
    const struct request request = { .cdb = { 0x1A, 0x08, 0x0A, [4] = 16 }, .cdb_length = 6,
                                     .direction = DATA_IN, .length = 16 };
    uint64_t last = shared->reset.begin;
    const struct record *it = shared->records, *end = it + SESSIONS;
    int value, is_possible;

    execute(&request);
    if (answer.status != MDL_GOOD || answer.data_in_length != 16)
        fail("no mode page");
    value = answer.data_in[6] >> 2 & 1;
    for (; it < end; it++)
        last = later(last, later(it->selected.begin, it->reset.begin));
    is_possible = may_be_last(&shared->reset, last, value) || (last == 0 && value == 0);
    for (it = shared->records; it < end; it++)
        is_possible |= may_be_last(&it->selected, last, value) || may_be_last(&it->reset, last, value)
                       || may_be_last(&it->perhaps_selected, last, value);
    if (!is_possible)
        printf("D_SENSE is %d, and no order of the commands leaves that\n", value);
    return !is_possible;
}

static int write_history(const char *name)
{
    FILE *out = fopen(name, "w");
    unsigned number;
    unsigned long at;

    if (!out)
        return 1;
    for (number = 0; number < SESSIONS; number++)
        for (at = 0; at < shared->records[number].event_count; at++)
            write_event(out, number, &shared->records[number].events[at]);
    for (at = 0; at < shared->power_cycle_count; at++)
        write_event(out, SESSIONS, &shared->power_cycles[at]);
    return fclose(out) != 0;
}

/* Prints what was sent, and how often each kind of command has ended with GOOD. Returns 1 if something was
 * not tried. */
static int print_counts(uint64_t sum, int is_long)
{
    unsigned long commands = 0, missing = 0, armed = 0, cuts = 0, resets = 0, good[KINDS] = { 0 };
    int number, kind, is_little = 0;

    for (number = 0; number < SESSIONS; number++) {
        const struct record *record = &shared->records[number];

        commands += record->commands;
        missing += record->missing;
        armed += shared->armed[number];
        cuts += record->cuts;
        resets += record->resets;
        for (kind = 0; kind < KINDS; kind++)
            good[kind] += record->good[kind];
    }
    printf("%lu commands of %d sessions; GOOD:", commands, SESSIONS);
    for (kind = 0; kind < KINDS; kind++) {
        printf(" %lu %s%s", good[kind], kind_names[kind], kind + 1 < KINDS ? "," : "\n");
        is_little |= good[kind] == 0 && (kind != COUNTS || is_extended);
    }
    printf("%lu resets, %lu new logins, %lu happenings, of these %lu power cycles; ", resets, cuts,
           shared->happened, shared->power_cycle_count);
    printf("%lu commands without a reply, %lu were armed; counters: %llu\n", missing, armed,
           (unsigned long long)sum);
    is_little |= !cuts || !resets || !missing || !shared->power_cycle_count;
    if (is_little && is_long)
        puts("something was not tried");
    return is_little && is_long;
}

int main(int count, char **words)
{
    pid_t children[SESSIONS];
    uint64_t length, sum = 0;
    int failed, wrong;

    if (count != 5)
        return 2;
    url = words[1];
    length = strtoull(words[2], NULL, 10) * SECOND;
    target = words[4];
    shared = mmap(NULL, sizeof *shared, PROT_READ | PROT_WRITE, MAP_SHARED | MAP_ANONYMOUS, -1, 0);
    if (shared == MAP_FAILED)
        return 1;
    prepare();
    if (!start_sessions(children, length))
        return 1;
    failed = run(children, now() + length);
    come_in();
    wrong = look_at_blocks() + look_at_counters(&sum) + look_at_mode();
    session_log_out(session);
    wrong += print_counts(sum, length >= LEAST_SECONDS * SECOND);
    printf("%d sessions failed\n", failed);
    return write_history(words[3]) || failed || wrong;
}
