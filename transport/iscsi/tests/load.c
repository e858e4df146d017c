/* Runs eight sessions at once, and kills one of them in the middle.
 *     load URL SECONDS HISTORY
 *
 * Each session is a process. It sends commands of many kinds, one after the other. It writes,
 * unmaps and reads blocks of its own, and sends service actions of persistent reservations. Now and
 * then it resets the logical unit or the target. When all have ended, each block has to contain the
 * last answered write of its session. In a block of the killed session it may be the write that got
 * no answer. Each reservation command is a line of HISTORY, for tests/order, with the times before
 * it was sent and after its answer:
 *     BEGIN END INITIATOR ACTION KEY ACTION-KEY TYPE STATUS GENERATION KEYS
 * END is 0 if no answer came. ACTION is a service action of PERSISTENT RESERVE OUT, or 16 for READ
 * KEYS. */
#include <signal.h>
#include <stdio.h>
#include <stdlib.h>
#include <string.h>
#include <sys/mman.h>
#include <sys/wait.h>
#include <unistd.h>

#include "reservations.h"
#include "session.h"
#include "tests/below.h"

enum {
    SESSIONS = 8,
    KILLED = 7,
    BLOCKS = 64, /* of each session */
    MOST_BLOCKS = 8,
    EVENTS = 1 << 15,
    COMMANDS_OF_A_RESET = 16,
    SECONDS_TO_END = 20
};

#define NOTHING_PENDING UINT64_MAX

/* The results of a session, which stay even if it is killed. */
struct record {
    uint64_t written[BLOCKS]; /* number of the last answered write; 0 for zeros */
    uint64_t pending[BLOCKS]; /* number of the write that has no answer yet */
    unsigned long commands, resets, event_count;
    struct event events[EVENTS];
};

static struct record *records;
static struct session *session;
static unsigned self;
static uint64_t state;
static struct answer answer;

static void fail(const char *what)
{
    fprintf(stderr, "session %u: %s\n", self, what);
    exit(1);
}

static int is_unit_attention(void)
{
    return answer.status == MDL_CHECK_CONDITION && answer.sense_length > 2
           && (answer.sense[2] & 0x0F) == 6;
}

static void execute(const struct request *request)
{
    session_execute(session, request, &answer);
    if (answer.status == NO_REPLY)
        fail("no reply");
    records[self].commands++;
}

/* The first address of a session's blocks. */
static uint32_t base_of(unsigned number)
{
    return number * BLOCKS;
}

/* The content of a block after a write: its address and the number of the write, over and over. */
static void fill_block(uint8_t *block, uint32_t address, uint64_t write)
{
    uint64_t words[MDL_BLOCK_LENGTH / 8];
    size_t at;

    for (at = 0; at < MDL_BLOCK_LENGTH / 8; at++)
        words[at] = write ? write << 16 | address : 0;
    memcpy(block, words, MDL_BLOCK_LENGTH);
}

/* Resets the logical unit or the target. The other sessions' commands go on. */
static void reset(void)
{
    if (session_reset(session, (enum reset)below(&state, 3)) != 0)
        fail("a reset is not done");
    records[self].resets++;
}

static struct request blocks_request(uint8_t opcode, uint32_t address, uint32_t count)
{
    struct request request = { .cdb_length = 10, .length = (size_t)count * MDL_BLOCK_LENGTH };

    request.cdb[0] = opcode;
    request.cdb[4] = (uint8_t)(address >> 8);
    request.cdb[5] = (uint8_t)address;
    request.cdb[8] = (uint8_t)count;
    request.direction = opcode == 0x2A ? DATA_OUT : DATA_IN;
    return request;
}

/* Notes what a command does to this session's blocks, before it is sent and after its reply. */
static void note_pending(uint32_t first, uint32_t count, uint64_t write)
{
    while (count--)
        records[self].pending[first + count] = write;
}

static void note_answered(uint32_t first, uint32_t count, uint64_t write)
{
    while (count--) {
        if (answer.status == MDL_GOOD)
            records[self].written[first + count] = write;
        records[self].pending[first + count] = NOTHING_PENDING;
    }
}

static void write_own(uint32_t first, uint32_t count, uint64_t write)
{
    static uint8_t blocks[MOST_BLOCKS * MDL_BLOCK_LENGTH];
    uint32_t address = base_of(self) + first, at;
    struct request request = blocks_request(0x2A, address, count);

    for (at = 0; at < count; at++)
        fill_block(blocks + at * MDL_BLOCK_LENGTH, address + at, write);
    request.data_out = blocks;
    note_pending(first, count, write);
    execute(&request);
    note_answered(first, count, write);
}

static void unmap_own(uint32_t first, uint32_t count)
{
    uint8_t list[24] = { 0, 22, 0, 16, [19] = (uint8_t)count };
    struct request request = { .cdb = { 0x42, [8] = sizeof list }, .cdb_length = 10 };
    uint32_t address = base_of(self) + first;

    list[14] = (uint8_t)(address >> 8);
    list[15] = (uint8_t)address;
    request.direction = DATA_OUT;
    request.length = sizeof list;
    request.data_out = list;
    note_pending(first, count, 0);
    execute(&request);
    note_answered(first, count, 0);
}

/* Returns 1 if a READ returned the blocks of the answered writes. Of a block that is `pending`
 * either will do. */
static void compare(unsigned owner, uint32_t first, uint32_t count)
{
    uint8_t expected[MDL_BLOCK_LENGTH], other[MDL_BLOCK_LENGTH];
    const struct record *record = &records[owner];
    uint32_t at;

    if (answer.data_in_length != (size_t)count * MDL_BLOCK_LENGTH)
        fail("too little data-in");
    for (at = 0; at < count; at++) {
        const uint8_t *block = answer.data_in + at * MDL_BLOCK_LENGTH;
        uint32_t address = base_of(owner) + first + at;
        uint64_t pending = record->pending[first + at];

        fill_block(expected, address, record->written[first + at]);
        fill_block(other, address,
                   pending == NOTHING_PENDING ? record->written[first + at] : pending);
        if (memcmp(block, expected, sizeof expected) && memcmp(block, other, sizeof other))
            fail("a block is not what was written last");
    }
}

static void read_own(uint32_t first, uint32_t count)
{
    struct request request = blocks_request(0x28, base_of(self) + first, count);

    execute(&request);
    if (answer.status == MDL_GOOD)
        compare(self, first, count);
}

/* A command that changes nothing. */
static void ask(void)
{
    static const uint8_t cdbs[][16] = {
        { 0x00 }, { 0x03, [4] = 18 }, { 0x12, [4] = 36 }, { 0x12, 1, 0xB0, [4] = 64 }, { 0x25 },
        { 0x1A, 0, 0x3F, [4] = 192 }, { 0x9E, 0x10, [13] = 32 }, { 0x9E, 0x12, [13] = 200 }
    };
    struct request request = request_of(cdbs[below(&state, sizeof cdbs / sizeof *cdbs)], MOST_CDB);

    request.direction = DATA_IN;
    request.length = 255;
    execute(&request);
}

/* Sends a reservation command and notes it, unless a unit attention comes in its place. */
static void note_event(struct event *event)
{
    struct record *record = &records[self];
    struct event *slot = &record->events[record->event_count];
    uint8_t list[RESERVATION_LIST];
    struct request request = request_of_event(event, list);

    event->begin = now();
    *slot = *event;
    record->event_count++;
    execute(&request);
    if (is_unit_attention())
        record->event_count--;
    else
        note_answer(slot, &answer);
}

/* Each session has two keys of its own. */
static uint8_t key_of(unsigned number)
{
    return (uint8_t)(0x10 * (number + 1) + below(&state, 2));
}

static void reserve(void)
{
    static const uint8_t actions[] = { 0, 0, 6, 6, 6, 1, 1, 2, 2, 3, 4, 4, READ_KEYS };
    static const uint8_t types[] = { 1, 3, 5, 6 };
    static uint8_t key;
    struct event event = { .action = actions[below(&state, sizeof actions)] };

    if (records[self].event_count + 1 >= EVENTS)
        return;
    event.type = types[below(&state, sizeof types)];
    if (event.action != READ_KEYS) {
        event.key = below(&state, 8) ? key : 0;
        if (below(&state, 4))
            event.action_key = key_of(event.action == 4 ? below(&state, SESSIONS) : self);
    }
    note_event(&event);
    if ((event.action == 0 || event.action == 6) && answer.status == MDL_GOOD)
        key = event.action_key;
}

/* Any two ports differ in name or ISID, and some differ in only one of them. */
static struct session *log_in(const char *url, unsigned port)
{
    struct session *opened = session_open(url, port / 2, port % 2);

    if (!opened)
        exit(1);
    return opened;
}

static void run_session(const char *url, uint64_t end)
{
    uint64_t write = 0;

    state = self + 1;
    session = log_in(url, self);
    while (now() < end) {
        uint32_t first = below(&state, BLOCKS - MOST_BLOCKS);
        uint32_t count = 1 + below(&state, MOST_BLOCKS), kind = below(&state, 64);

        if (kind < 2)
            reserve();
        else if (kind < 20)
            write_own(first, count, ++write);
        else if (kind < 24)
            unmap_own(first, count);
        else if (kind < 44)
            read_own(first, count);
        else if (kind == 44 && below(&state, COMMANDS_OF_A_RESET) == 0)
            reset();
        else
            ask();
    }
    session_log_out(session);
    exit(0);
}

/* Waits for the sessions, and kills one when `middle` is past. The number that failed. */
static int wait_for(pid_t *children, uint64_t middle, uint64_t deadline)
{
    int failed = 0, left = SESSIONS, status;
    pid_t killed = children[KILLED], ended;

    while (left > 0) {
        if (killed && now() > middle) {
            kill(killed, SIGKILL);
            killed = 0;
        }
        ended = waitpid(-1, &status, WNOHANG);
        if (ended > 0) {
            left--;
            if (ended == children[KILLED] ? !WIFSIGNALED(status) : status != 0)
                failed++;
        } else if (now() > deadline) {
            fprintf(stderr, "%d sessions hang\n", left);
            return left;
        } else {
            usleep(10000);
        }
    }
    return failed;
}

static int write_history(const char *name)
{
    FILE *out = fopen(name, "w");
    unsigned number;
    unsigned long at;

    if (!out)
        return 1;
    for (number = 0; number < SESSIONS; number++)
        for (at = 0; at < records[number].event_count; at++)
            write_event(out, number, &records[number].events[at]);
    return fclose(out);
}

/* Logs in as a port, and has its unit attentions reported. */
static void come_back(const char *url, unsigned port)
{
    static const uint8_t test_unit_ready[6];
    struct request request = request_of(test_unit_ready, sizeof test_unit_ready);

    self = port;
    session = log_in(url, self);
    do
        execute(&request);
    while (is_unit_attention());
}

/* READ KEYS, as the last event of the history. */
static void note_keys(void)
{
    struct event event = { .action = READ_KEYS };

    note_event(&event);
}

/* Notes the keys at the end, and reads all blocks when the reservations are cleared. */
static void look(const char *url)
{
    struct request request;
    unsigned port = 0, owner;

    come_back(url, port);
    note_keys();
    while (!clear_reservations(session)) {
        session_log_out(session);
        if (++port == SESSIONS)
            fail("reservations can't be cleared");
        come_back(url, port);
    }
    for (owner = 0; owner < SESSIONS; owner++) {
        request = blocks_request(0x28, base_of(owner), BLOCKS);
        execute(&request);
        if (answer.status != MDL_GOOD)
            fail("the blocks can't be read");
        compare(owner, 0, BLOCKS);
    }
    session_log_out(session);
}

int main(int count, char **words)
{
    pid_t children[SESSIONS];
    unsigned long commands = 0, resets = 0, events = 0;
    uint64_t begin = now(), length;
    unsigned number;
    int failed;

    if (count != 4)
        return 2;
    length = strtoull(words[2], NULL, 10) * 1000000000;
    records = mmap(NULL, SESSIONS * sizeof *records, PROT_READ | PROT_WRITE,
                   MAP_SHARED | MAP_ANONYMOUS, -1, 0);
    if (records == MAP_FAILED)
        return 1;
    for (number = 0; number < SESSIONS; number++) {
        memset(records[number].pending, 0xFF, sizeof records[number].pending);
        children[number] = fork();
        self = number;
        if (children[number] == 0)
            run_session(words[1], begin + length);
        if (children[number] < 0)
            return 1;
    }
    failed = wait_for(children, begin + length / 2,
                      begin + length + SECONDS_TO_END * (uint64_t)1000000000);
    look(words[1]);
    for (number = 0; number < SESSIONS; number++) {
        commands += records[number].commands;
        resets += records[number].resets;
        events += records[number].event_count;
    }
    printf("%lu commands of %d sessions, %lu of them reservation commands; %lu resets; ", commands,
           SESSIONS, events, resets);
    printf("%d sessions failed\n", failed);
    return write_history(words[3]) || failed;
}
