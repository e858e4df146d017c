/* See session.h. */
#include "session.h"

#include <poll.h>
#include <stdio.h>
#include <stdlib.h>
#include <string.h>

#include <iscsi/iscsi.h>
#include <iscsi/scsi-lowlevel.h>

/* LUN at a login: libiscsi sends no TEST UNIT READY of its own then. */
enum { NO_LUN = -1 };

/* Of the ISID, so that all are of one kind (RFC 7143, 11.12.5). */
enum { ISID_RANDOM = 0x4D4448 };

/* Of the reference fields of a task management function that refers to no command. */
#define NO_TASK UINT32_MAX

struct session {
    struct iscsi_context *context;
    int lun;
    unsigned nops; /* the NOP-Outs that got a reply */
};

static struct session *fail(struct session *session, const char *what)
{
    fprintf(stderr, "%s: %s\n", what, iscsi_get_error(session->context));
    iscsi_destroy_context(session->context);
    free(session);
    return NULL;
}

struct session *session_open(const char *address, unsigned name, unsigned isid)
{
    struct session *session = calloc(1, sizeof *session);
    struct iscsi_url *url;
    char whole_name[64];

    snprintf(whole_name, sizeof whole_name, "iqn.2026-11.org.example:initiator-%u", name);
    if (!session || !(session->context = iscsi_create_context(whole_name))) {
        free(session);
        return NULL;
    }
    url = iscsi_parse_full_url(session->context, address);
    if (!url)
        return fail(session, address);
    session->lun = url->lun;
    iscsi_set_isid_random(session->context, ISID_RANDOM, isid);
    iscsi_set_session_type(session->context, ISCSI_SESSION_NORMAL);
    iscsi_set_targetname(session->context, url->target);
    iscsi_set_noautoreconnect(session->context, 1);
    iscsi_set_timeout(session->context, TIMEOUT_SECONDS);
    if (url->user[0])
        iscsi_set_initiator_username_pwd(session->context, url->user, url->passwd);
    if (iscsi_full_connect_sync(session->context, url->portal, NO_LUN)) {
        iscsi_destroy_url(url);
        return fail(session, "login");
    }
    iscsi_destroy_url(url);
    return session;
}

static long residual_of(const struct scsi_task *task)
{
    switch (task->residual_status) {
    case SCSI_RESIDUAL_UNDERFLOW: return (long)task->residual;
    case SCSI_RESIDUAL_OVERFLOW: return -(long)task->residual;
    default: return 0;
    }
}

/* Sense data is in the data segment, after its length of two bytes (RFC 7143, 11.4.7.2). */
static void read_answer(const struct scsi_task *task, struct answer *answer)
{
    const uint8_t *bytes = task->datain.data;
    size_t length = task->datain.size > 0 ? (size_t)task->datain.size : 0;

    answer->status = task->status;
    answer->residual = residual_of(task);
    if (task->status == SCSI_STATUS_CHECK_CONDITION && length >= 2) {
        answer->sense_length = (size_t)bytes[0] << 8 | bytes[1];
        if (answer->sense_length > length - 2 || answer->sense_length > MDL_SENSE_LENGTH)
            answer->sense_length = 0;
        memcpy(answer->sense, bytes + 2, answer->sense_length);
    } else if (length <= sizeof answer->data_in) {
        answer->data_in_length = length;
        if (length > 0)
            memcpy(answer->data_in, bytes, length);
    }
}

static struct scsi_task *task_of(const struct request *request)
{
    static const int directions[] = { SCSI_XFER_NONE, SCSI_XFER_READ, SCSI_XFER_WRITE };
    uint8_t cdb[MOST_CDB];

    memcpy(cdb, request->cdb, sizeof cdb);
    return scsi_create_task((int)request->cdb_length, cdb, directions[request->direction],
                            (int)request->length);
}

void session_execute(struct session *session, const struct request *request, struct answer *answer)
{
    struct iscsi_data data = { request->length, (unsigned char *)(uintptr_t)request->data_out };
    struct scsi_task *task = task_of(request);

    answer->status = NO_REPLY;
    answer->sense_length = answer->data_in_length = 0;
    answer->residual = 0;
    if (!task)
        return;
    if (iscsi_scsi_command_sync(session->context, session->lun, task,
                                request->direction == DATA_OUT ? &data : NULL)
        && task->status >= 0 && task->status <= 0xFF)
        read_answer(task, answer);
    scsi_free_scsi_task(task);
}

/* A command that was sent and has no reply yet. */
struct sent {
    void (*done)(int status, void *context);
    void *context;
};

static void receive(struct iscsi_context *context, int status, void *data, void *private_data)
{
    struct sent *sent = private_data;

    (void)context;
    scsi_free_scsi_task(data);
    sent->done(status >= 0 && status <= 0xFF ? status : NO_REPLY, sent->context);
    free(sent);
}

int session_send(struct session *session, const struct request *request, uint8_t *data_in,
                 void (*done)(int status, void *context), void *context)
{
    struct iscsi_data data = { request->length, (unsigned char *)(uintptr_t)request->data_out };
    struct scsi_task *task = task_of(request);
    struct sent *sent = malloc(sizeof *sent);

    if (task && sent) {
        *sent = (struct sent){ done, context };
        if ((request->direction != DATA_IN
             || !scsi_task_add_data_in_buffer(task, (int)request->length, data_in))
            && !iscsi_scsi_command_async(session->context, session->lun, task, receive,
                                         request->direction == DATA_OUT ? &data : NULL, sent))
            return 0;
    }
    if (task)
        scsi_free_scsi_task(task);
    free(sent);
    return 1;
}

/* Waits until something can be sent or received, and does it. Returns 1, or 0 if nothing can in this time.
 * If the session is lost, it returns -1. */
static int serve(struct session *session, int milliseconds)
{
    struct pollfd descriptor = { .fd = iscsi_get_fd(session->context),
                                 .events = (short)iscsi_which_events(session->context) };
    int ready = poll(&descriptor, 1, milliseconds);

    return ready == 1 && iscsi_service(session->context, descriptor.revents) ? -1 : ready;
}

int session_serve(struct session *session)
{
    return serve(session, TIMEOUT_SECONDS * 1000) != 1;
}

int session_serve_for(struct session *session, int milliseconds)
{
    return serve(session, milliseconds) < 0;
}

/* The number of answers and responses that have come, and that of the last response among them. */
static unsigned long received, last_response;

struct command {
    struct scsi_task *task; /* null when the reply is there */
    unsigned long received; /* its number among all that have come, from 1 on */
    size_t buffered;        /* the length of data-in that goes to the answer's buffer at once */
    struct answer answer;
};

static void receive_answer(struct iscsi_context *context, int status, void *data,
                           void *private_data)
{
    struct command *command = private_data;
    struct scsi_task *task = data;

    (void)context;
    if (status >= 0 && status <= 0xFF) {
        read_answer(task, &command->answer);
        if (command->buffered > 0 && command->answer.residual >= 0)
            command->answer.data_in_length = command->buffered - (size_t)command->answer.residual;
    }
    command->task = NULL;
    command->received = ++received;
    scsi_free_scsi_task(task);
}

/* Sends all that is queued. libiscsi sends NOP-Outs and task management functions before that. */
static int flush(struct session *session)
{
    while (iscsi_which_events(session->context) & POLLOUT)
        if (session_serve(session))
            return 1;
    return 0;
}

struct command *session_begin(struct session *session, const struct request *request,
                              int keeps_data_in)
{
    struct iscsi_data data = { request->length, (unsigned char *)(uintptr_t)request->data_out };
    struct command *command = malloc(sizeof *command);

    if (!command)
        return NULL;
    /* Not by calloc, which clears a buffer of 1 MiB. */
    command->received = 0;
    command->answer.status = NO_REPLY;
    command->answer.sense_length = command->answer.data_in_length = 0;
    command->answer.residual = 0;
    command->task = task_of(request);
    command->buffered = keeps_data_in && request->direction == DATA_IN ? request->length : 0;
    memset(command->answer.data_in, 0, command->buffered);
    if (command->task
        && (command->buffered == 0
            || !scsi_task_add_data_in_buffer(command->task, (int)request->length,
                                             command->answer.data_in))
        && !iscsi_scsi_command_async(session->context, session->lun, command->task, receive_answer,
                                     request->direction == DATA_OUT ? &data : NULL, command)
        && !flush(session))
        return command;
    session_forget(session, command);
    return NULL;
}

static void receive_nop(struct iscsi_context *context, int status, void *data, void *private_data)
{
    struct session *session = private_data;

    (void)context;
    (void)data;
    session->nops += status == SCSI_STATUS_GOOD;
}

int session_ping(struct session *session)
{
    unsigned before = session->nops;

    if (iscsi_nop_out_async(session->context, receive_nop, NULL, 0, session))
        return 1;
    while (session->nops == before)
        if (session_serve(session))
            return 1;
    return 0;
}

const struct answer *session_settle(struct session *session, const struct command *command)
{
    int count;

    for (count = 0; count < 2 && command->task; count++)
        if (session_ping(session))
            break;
    return &command->answer;
}

const struct answer *session_answer(const struct command *command)
{
    return command->task ? NULL : &command->answer;
}

int session_was_first(const struct command *command)
{
    return command->received > 0 && command->received < last_response;
}

void session_forget(struct session *session, struct command *command)
{
    if (command->task)
        iscsi_scsi_cancel_task(session->context, command->task);
    free(command);
}

static void receive_response(struct iscsi_context *context, int status, void *data,
                             void *private_data)
{
    int *response = private_data;

    (void)context;
    last_response = ++received;
    *response = status == SCSI_STATUS_GOOD && data ? (int)*(const uint32_t *)data : NO_REPLY;
}

/* Sends a task management function, and returns its response. */
static int manage(struct session *session, enum iscsi_task_mgmt_funcs function, uint32_t tag,
                  uint32_t number)
{
    enum { PENDING = NO_REPLY - 1 };
    static int response;

    response = PENDING;
    if (iscsi_task_mgmt_async(session->context, session->lun, function, tag, number,
                              receive_response, &response))
        return NO_REPLY;
    while (response == PENDING)
        if (session_serve(session))
            return NO_REPLY;
    return response;
}

int session_abort(struct session *session, const struct command *command)
{
    if (!command->task)
        return NO_REPLY;
    return manage(session, ISCSI_TM_ABORT_TASK, command->task->itt, command->task->cmdsn);
}

int session_abort_all(struct session *session)
{
    return manage(session, ISCSI_TM_ABORT_TASK_SET, NO_TASK, 0);
}

int session_reset(struct session *session, enum reset reset)
{
    switch (reset) {
    case TARGET_WARM_RESET:
        return manage(session, ISCSI_TM_TARGET_WARM_RESET, NO_TASK, 0);
    case TARGET_COLD_RESET:
        return manage(session, ISCSI_TM_TARGET_COLD_RESET, NO_TASK, 0);
    default: return manage(session, ISCSI_TM_LUN_RESET, NO_TASK, 0);
    }
}

int session_manage(struct session *session, unsigned function)
{
    return manage(session, (enum iscsi_task_mgmt_funcs)function, NO_TASK, 0);
}

void session_log_out(struct session *session)
{
    if (!session)
        return;
    iscsi_logout_sync(session->context);
    session_drop(session);
}

void session_drop(struct session *session)
{
    if (!session)
        return;
    iscsi_destroy_context(session->context);
    free(session);
}

struct request request_of(const uint8_t *cdb, size_t length)
{
    struct request request = { .cdb_length = length };

    memcpy(request.cdb, cdb, length < MOST_CDB ? length : MOST_CDB);
    return request;
}
