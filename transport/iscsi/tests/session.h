/* Sessions of initiators over libiscsi, for the programs that try the target. */
#ifndef SESSION_H
#define SESSION_H

#include <stddef.h>
#include <stdint.h>

#include "mehdalung.h"

/* The CDB field of a SCSI Command PDU (RFC 7143, 11.3). */
enum { MOST_CDB = 16 };

/* A command that has no reply by then has none. */
enum { TIMEOUT_SECONDS = 10 };

/* A status beside those of SCSI: no reply came. */
enum { NO_REPLY = -1 };

struct session;

enum direction { NO_DATA, DATA_IN, DATA_OUT };

struct request {
    uint8_t cdb[MOST_CDB];
    size_t cdb_length;
    enum direction direction;
    size_t length;           /* Expected Data Transfer Length */
    const uint8_t *data_out; /* `length` bytes with DATA_OUT */
};

struct answer {
    int status; /* of SCSI, or NO_REPLY */
    uint8_t sense[MDL_SENSE_LENGTH];
    size_t sense_length;
    uint8_t data_in[MDL_BUFFER_LENGTH];
    size_t data_in_length;
    long residual; /* above 0 the bytes that were too few, below 0 those that did not fit */
};

/* Logs in at a URL, iscsi://[USER%PASSWORD@]ADDRESS:PORT/TARGET/LUN, as an initiator port. Its name
 * ends with one number, its ISID with the other. No command is sent. Null where the login is refused,
 * and the reason is on standard error. */
struct session *session_open(const char *url, unsigned name, unsigned isid);

/* Sends a command and waits for its reply. */
void session_execute(struct session *session, const struct request *request, struct answer *answer);

/* Sends a command without waiting. session_serve calls `done` with the status and `context` when
 * the reply is there. Until then the `request->length` bytes at `request->data_out` or at `data_in`
 * are in use. Returns 1 if the command can't be sent. */
int session_send(struct session *session, const struct request *request, uint8_t *data_in,
                 void (*done)(int status, void *context), void *context);

/* Waits until something can be sent or received, and does it. Returns 1 if the session is lost. */
int session_serve(struct session *session);

/* The same, for so many milliseconds at most. Returns 1 only if the session is lost. */
int session_serve_for(struct session *session, int milliseconds);

/* Sends a NOP-Out and waits for its reply. Returns 1 if the session is lost. After a login tgtd
 * allows only two commands, until it has replied to something. */
int session_ping(struct session *session);

/* A command that was sent without waiting for its reply. */
struct command;

/* Sends a command without waiting. Null if it can't be sent. Data-out is in use until the reply.
 * libiscsi drops data-in before CHECK CONDITION, unless `keeps_data_in` is set. The length of
 * data-in is then only what the residual count says. */
struct command *session_begin(struct session *session, const struct request *request,
                              int keeps_data_in);

/* Waits for the reply to a command, or until the target has shown that it sends none: it has
 * replied to a later NOP-Out, twice, because it may have to ask for data-out first. Its answer then
 * has the status NO_REPLY. */
const struct answer *session_settle(struct session *session, const struct command *command);

/* The answer to a command that was sent, or null if none has come yet. */
const struct answer *session_answer(const struct command *command);

/* Returns 1 if the answer to a command came before the response of the last task management function. */
int session_was_first(const struct command *command);

/* Forgets a command. If its session still waits for its reply, the session ignores it. */
void session_forget(struct session *session, struct command *command);

/* Sends ABORT TASK for a command, or ABORT TASK SET. Returns as session_reset does. */
int session_abort(struct session *session, const struct command *command);
int session_abort_all(struct session *session);

enum reset { LOGICAL_UNIT_RESET, TARGET_WARM_RESET, TARGET_COLD_RESET };

/* Sends a task management function that is a reset. Returns the response of RFC 7143, 11.6.1, where
 * 0 is "function complete", or NO_REPLY. Commands that were sent before are still waited for. */
int session_reset(struct session *session, enum reset reset);

/* Sends a task management function that refers to no command, by its number in RFC 7143, 11.5.1. Returns as
 * session_reset does. */
int session_manage(struct session *session, unsigned function);

/* Logs out, or closes the connection without a word. Null serves. */
void session_log_out(struct session *session);
void session_drop(struct session *session);

/* A request without data. */
struct request request_of(const uint8_t *cdb, size_t length);

#endif
