/* Sends commands to a target, from lines, and prints each reply as sgrun does.
 *     initiator [--eight | --sixty-four] [--bytes] [--quick] [--target COMMAND] URL [SCRIPT]
 *
 *     raw I CDB [DATA]            sends a CDB of at most 16 bytes, and data-out, in hexadecimal.
 *     fill I LBA COUNT BYTE       sends WRITE(16) of equal blocks. Numbers are 17, 0x11 or 11h.
 *     send I CDB [DATA]           sends a CDB as `raw` does, without waiting for its reply.
 *     wait I                      waits for the replies to all that `send` has sent, and prints
 *                                 them. A command that gets none stays under way.
 *     abort I [N]                 sends ABORT TASK for command N of I that is under way, from 0.
 *     abort I all                 sends ABORT TASK SET.
 *     drop I                      closes the connection without a logout.
 *     logout I                    logs out.
 *     again I                     logs in again, and keeps the connection of the old session open.
 *     end I                       closes that connection.
 *     reset I                     sends a LOGICAL UNIT RESET.
 *     warm I, cold I              sends a TARGET WARM RESET, or a TARGET COLD RESET.
 *     manage I N                  sends task management function N of RFC 7143, 11.5.1, without a command.
 *     power                       runs `COMMAND power`. So do the other words by which something
 *                                 happens to an extended disk: `reset`, `reset target`, `nexus I`,
 *                                 `grow N`, `attention CODE`, `attention CODE I`, and the words of
 *                                 `fault` and `heal`.
 *     # ..                        is a comment.
 *
 * I is an initiator port, 0 to 65, in the form of the other numbers. It logs in with its first line, and
 * again with the first line after `drop` or `logout`. It is the same port then: its name and its ISID follow
 * from I. With --eight, ports 0 to 7 log in at the beginning and send an INQUIRY each, in this order. With
 * --sixty-four, ports 0 to 63 do. So port I is initiator I of a new disk. With --bytes, sense data is also
 * printed as bytes, and so is data-in that came with it. With --quick, `raw` and `fill` print a line if the
 * reply, with a login before it, took more than a second.
 *
 * A command without a reply is NO REPLY: the target has replied to a later NOP-Out, twice. `raw`
 * and `fill` then send ABORT TASK for it.
 *
 * The first reply whose status is not 0 decides the exit status, as for sgrun. A line with a fault
 * ends the script with status 2. */
#include <inttypes.h>
#include <stdio.h>
#include <stdlib.h>
#include <string.h>
#include <time.h>

#include "print.h"
#include "session.h"

enum {
    PORTS = MDL_MOST_INITIATORS + 2,
    MOST_LINE = 4 * 1024 * 1024,
    MOST_WORDS = 64,
    MOST_SENT = 16,
    MOST_IMMEDIATE = 8192,
    MOST_COMMAND = 1024,
    MOST_FILL = 256,
    MOST_MILLISECONDS = 1000 /* of a reply, with --quick */
};

/* The status of a line that can't be executed. */
enum { FAULT = 2 };

/* A sense key. */
enum { RECOVERED_ERROR = 0x1 };

static const char *url;
static const char *target_command;
static struct session *sessions[PORTS];
static struct session *old_sessions[PORTS]; /* after `again` */

/* The commands of `send`, with the lines that sent them. Null: none. */
static struct sent {
    struct command *command;
    unsigned long line;
} sent[PORTS][MOST_SENT];

static int prints_bytes, has_to_be_quick;
static unsigned long line;
static int exit_status;

static void fail(const char *what)
{
    printf("line %lu: %s\n", line, what);
    exit(FAULT);
}

/* libiscsi drops the data-in of a recovered error, unless it is printed. */
static int is_dropped(const struct answer *answer)
{
    mdl_sense sense;

    return !prints_bytes
           && !mdl_read_sense(answer->sense, answer->sense_length, &sense)
           && sense.key == RECOVERED_ERROR;
}

/* Data-in and its residual make up the expected length. A CDB may ask for more data-out than there is,
 * but what it leaves is no more than there was. */
static int has_wrong_residual(const struct answer *answer, const struct request *request)
{
    long expected = (long)request->length;

    if (answer->status == NO_REPLY || is_dropped(answer))
        return 0;
    if (request->direction != DATA_IN)
        return answer->residual > expected;
    return answer->residual < 0 || (long)answer->data_in_length + answer->residual != expected;
}

/* Prints an answer. The first status that is not 0 decides the exit status. */
static void report(unsigned long line, const struct answer *answer)
{
    mdl_reply reply = { .status = (uint8_t)answer->status };

    print_answer(line, answer, prints_bytes);
    reply.sense_length = (uint8_t)answer->sense_length;
    memcpy(reply.sense, answer->sense, answer->sense_length);
    if (exit_status == 0)
        exit_status = mdl_exit_status(&reply);
}

static void log_in(unsigned port)
{
    if (sessions[port])
        return;
    sessions[port] = session_open(url, port, port);
    if (!sessions[port] || session_ping(sessions[port]))
        fail("no session");
}

static struct command *begin(unsigned port, const struct request *request)
{
    struct command *command;

    log_in(port);
    command = session_begin(sessions[port], request, prints_bytes);
    if (!command)
        fail("the command can't be sent");
    return command;
}

static int64_t milliseconds(void)
{
    struct timespec now;

    clock_gettime(CLOCK_MONOTONIC, &now);
    return (int64_t)now.tv_sec * 1000 + now.tv_nsec / 1000000;
}

static void execute(unsigned port, const struct request *request)
{
    int64_t start = milliseconds();
    struct command *command = begin(port, request);
    const struct answer *answer = session_settle(sessions[port], command);
    int is_late = has_to_be_quick && milliseconds() - start > MOST_MILLISECONDS;

    report(line, answer);
    if (is_late)
        puts("  late");
    if (has_wrong_residual(answer, request))
        printf("  residual: %ld of %zu\n", answer->residual, request->length);
    if (answer->status == NO_REPLY)
        session_abort(sessions[port], command);
    session_forget(sessions[port], command);
}

/* Reads a number, as in a script: 17, 0x11 or 11h. Returns 0 if it is none. */
static int read_number(const char *word, uint64_t *it)
{
    size_t length = word ? strlen(word) : 0;
    int has_suffix = length > 0 && (word[length - 1] | 0x20) == 'h';
    int is_hexadecimal = has_suffix || (length > 1 && (word[1] | 0x20) == 'x');
    char *end = NULL;

    *it = length > 0 && word[0] != '-' ? strtoull(word, &end, is_hexadecimal ? 16 : 10) : 0;
    return end && end != word && !*(end + has_suffix);
}

static unsigned port_of(const char *word)
{
    uint64_t it;

    if (!read_number(word, &it) || it >= PORTS)
        fail("initiator");
    return (unsigned)it;
}

static int digit(char it)
{
    static const char digits[] = "0123456789abcdef";
    const char *found = it ? strchr(digits, it | 0x20) : NULL;

    return found ? (int)(found - digits) : -1;
}

/* Bytes in hexadecimal, in place of their digits; `-` is none. */
static size_t read_hex(char *word, size_t most)
{
    size_t length = strcmp(word, "-") == 0 ? 0 : strlen(word), at;

    if (length % 2 || length / 2 > most)
        fail("hex");
    for (at = 0; at < length; at += 2) {
        int high = digit(word[at]), low = digit(word[at + 1]);

        if (high < 0 || low < 0)
            fail("hex");
        word[at / 2] = (char)(high << 4 | low);
    }
    return length / 2;
}

static struct request request_of_words(char *cdb, char *data)
{
    struct request request = { .direction = DATA_IN, .length = MDL_BUFFER_LENGTH };

    if (!cdb)
        fail("usage");
    request.cdb_length = read_hex(cdb, MOST_CDB);
    memcpy(request.cdb, cdb, request.cdb_length);
    if (data) {
        request.direction = DATA_OUT;
        request.length = read_hex(data, MOST_LINE);
        request.data_out = (const uint8_t *)data;
    }
    return request;
}

static void raw(char *port, char *cdb, char *data)
{
    struct request request = request_of_words(cdb, data);

    execute(port_of(port), &request);
}

/* Data-out is sent with the command, so it is not needed after the line. The target has received
 * the command before it replies to the NOP-Out. */
static void send_without_waiting(unsigned port, char *cdb, char *data)
{
    struct request request = request_of_words(cdb, data);
    int at = 0;

    if (data && request.length > MOST_IMMEDIATE)
        fail("too much data-out");
    while (at < MOST_SENT && sent[port][at].command)
        at++;
    if (at == MOST_SENT)
        fail("too many commands are under way");
    sent[port][at] = (struct sent){ begin(port, &request), line };
    if (session_ping(sessions[port]))
        fail("no session");
    printf("line %lu: SENT\n", line);
}

/* Forgets the command at a place, and moves the later ones up. */
static void forget(unsigned port, int at)
{
    session_forget(sessions[port], sent[port][at].command);
    memmove(&sent[port][at], &sent[port][at + 1],
            (size_t)(MOST_SENT - at - 1) * sizeof sent[port][at]);
    sent[port][MOST_SENT - 1].command = NULL;
}

/* Prints the answers of commands in the order in which they were sent. */
static void wait_for(unsigned port)
{
    const struct answer *answer;
    int at = 0;

    log_in(port);
    while (at < MOST_SENT && sent[port][at].command) {
        answer = session_settle(sessions[port], sent[port][at].command);
        report(sent[port][at].line, answer);
        if (answer->status == NO_REPLY)
            at++;
        else
            forget(port, at);
    }
}

static uint64_t number(const char *word)
{
    uint64_t it;

    if (!read_number(word, &it))
        fail("number");
    return it;
}

static void put(uint8_t *bytes, size_t length, uint64_t it)
{
    while (length--) {
        bytes[length] = (uint8_t)it;
        it >>= 8;
    }
}

static void fill(char *port, char *address, char *count, char *byte)
{
    static uint8_t blocks[MOST_FILL * MDL_BLOCK_LENGTH];
    struct request request = { .cdb = { 0x8A }, .cdb_length = 16, .direction = DATA_OUT };
    uint64_t length = number(count);

    if (length > MOST_FILL)
        fail("number");
    put(request.cdb + 2, 8, number(address));
    put(request.cdb + 10, 4, length);
    memset(blocks, (int)number(byte), sizeof blocks);
    request.length = (size_t)length * MDL_BLOCK_LENGTH;
    request.data_out = blocks;
    execute(port_of(port), &request);
}

static void abort_command(unsigned port, const char *which)
{
    int all = which && strcmp(which, "all") == 0, response;
    uint64_t at = which && !all ? number(which) : 0;

    if (!all && (at >= MOST_SENT || !sent[port][at].command))
        fail("the command is not under way");
    log_in(port);
    response = all ? session_abort_all(sessions[port])
                   : session_abort(sessions[port], sent[port][at].command);
    printf("line %lu: ABORT TASK%s, response %d\n", line, all ? " SET" : "", response);
}

static void reset(unsigned port, enum reset reset)
{
    static const char *const names[] = {
        [LOGICAL_UNIT_RESET] = "RESET", [TARGET_WARM_RESET] = "WARM RESET",
        [TARGET_COLD_RESET] = "COLD RESET"
    };

    log_in(port);
    printf("line %lu: %s, response %d\n", line, names[reset],
           session_reset(sessions[port], reset));
}

static void manage(unsigned port, const char *function)
{
    uint64_t it = number(function);

    log_in(port);
    printf("line %lu: FUNCTION %" PRIu64 ", response %d\n", line, it,
           session_manage(sessions[port], (unsigned)it));
}

/* What sgrun prints for words by which something happens, or null if the first is no such word. */
static const char *name_of_happening(char **words)
{
    static const char *const names[][2] = {
        { "power", "POWER" }, { "nexus", "NEXUS LOSS" }, { "grow", "GROW" },
        { "attention", "ATTENTION" }, { "fault", "FAULT" }, { "heal", "HEAL" }
    };
    size_t at;

    if (strcmp(words[0], "reset") == 0)
        return words[1] ? "TARGET RESET" : "RESET";
    for (at = 0; at < sizeof names / sizeof *names; at++)
        if (strcmp(words[0], names[at][0]) == 0)
            return names[at][1];
    return NULL;
}

/* A shell runs COMMAND with the words. */
static void happen(char **words)
{
    static const char plain[] = "0123456789/ABCDEFabcdefghijklmnopqrstuvwxyz";
    char command[MOST_COMMAND];
    int at, length = snprintf(command, sizeof command, "%s", target_command ? target_command : "");

    for (at = 0; at < MOST_WORDS && words[at] && length < MOST_COMMAND; at++) {
        if (words[at][strspn(words[at], plain)])
            fail("usage");
        length += snprintf(command + length, sizeof command - (size_t)length, " %s", words[at]);
    }
    if (!target_command || length >= MOST_COMMAND || system(command))
        fail(words[0]);
    printf("line %lu: %s\n", line, name_of_happening(words));
}

static void log_in_again(unsigned port)
{
    while (sent[port][0].command)
        forget(port, 0);
    session_drop(old_sessions[port]);
    old_sessions[port] = sessions[port];
    sessions[port] = NULL;
    log_in(port);
}

/* Commands without a reply end with their session. */
static void end(unsigned port, void (*how)(struct session *))
{
    while (sent[port][0].command)
        forget(port, 0);
    how(sessions[port]);
    sessions[port] = NULL;
}

static void run_line(char *text)
{
    char *words[MOST_WORDS + 1] = { NULL }, *word = strtok(text, " \t\r\n");
    size_t count;

    for (count = 0; word && count < MOST_WORDS; word = strtok(NULL, " \t\r\n"))
        words[count++] = word;
    if (count == 0 || words[0][0] == '#')
        return;
    if (strcmp(words[0], "raw") == 0) {
        raw(words[1], words[2], words[3]);
    } else if (strcmp(words[0], "fill") == 0) {
        fill(words[1], words[2], words[3], words[4]);
    } else if (strcmp(words[0], "warm") == 0) {
        reset(port_of(words[1]), TARGET_WARM_RESET);
    } else if (strcmp(words[0], "cold") == 0) {
        reset(port_of(words[1]), TARGET_COLD_RESET);
    } else if (strcmp(words[0], "manage") == 0) {
        manage(port_of(words[1]), words[2]);
    } else if (strcmp(words[0], "reset") == 0 && words[1] && strcmp(words[1], "target") != 0) {
        reset(port_of(words[1]), LOGICAL_UNIT_RESET);
    } else if (name_of_happening(words)) {
        happen(words);
    } else if (strcmp(words[0], "send") == 0) {
        send_without_waiting(port_of(words[1]), words[2], words[3]);
    } else if (strcmp(words[0], "wait") == 0) {
        wait_for(port_of(words[1]));
    } else if (strcmp(words[0], "abort") == 0) {
        abort_command(port_of(words[1]), words[2]);
    } else if (strcmp(words[0], "drop") == 0) {
        end(port_of(words[1]), session_drop);
    } else if (strcmp(words[0], "end") == 0) {
        session_drop(old_sessions[port_of(words[1])]);
        old_sessions[port_of(words[1])] = NULL;
    } else if (strcmp(words[0], "again") == 0) {
        log_in_again(port_of(words[1]));
    } else if (strcmp(words[0], "logout") == 0) {
        end(port_of(words[1]), session_log_out);
    } else {
        fail("unknown verb");
    }
}

/* INQUIRY does not report or clear a unit attention (SPC-4, 6.6.1). */
static void log_in_first(unsigned count)
{
    static const uint8_t inquiry[6] = { 0x12 };
    struct request request = request_of(inquiry, sizeof inquiry);
    static struct answer answer;
    unsigned port;

    for (port = 0; port < count; port++) {
        log_in(port);
        session_execute(sessions[port], &request, &answer);
        if (answer.status != MDL_GOOD)
            fail("no INQUIRY");
    }
}

int main(int count, char **words)
{
    static char text[MOST_LINE];
    unsigned first = 0, port;
    int at = 1;
    FILE *script;

    setvbuf(stdout, NULL, _IOLBF, 0);
    for (; at < count && strncmp(words[at], "--", 2) == 0; at++)
        if (strcmp(words[at], "--eight") == 0)
            first = MDL_INITIATORS;
        else if (strcmp(words[at], "--sixty-four") == 0)
            first = MDL_MOST_INITIATORS;
        else if (strcmp(words[at], "--bytes") == 0)
            prints_bytes = 1;
        else if (strcmp(words[at], "--quick") == 0)
            has_to_be_quick = 1;
        else if (strcmp(words[at], "--target") == 0 && at + 1 < count)
            target_command = words[++at];
        else
            fail("usage");
    url = words[at];
    script = url && words[at + 1] ? fopen(words[at + 1], "r") : stdin;
    if (!url || !script)
        fail("usage");
    log_in_first(first);
    while (fgets(text, sizeof text, script)) {
        line++;
        run_line(text);
    }
    for (port = 0; port < PORTS; port++)
        end(port, session_log_out);
    return exit_status;
}
