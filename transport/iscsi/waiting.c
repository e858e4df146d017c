/* See waiting.h. */
#include <inttypes.h>
#include <stdio.h>
#include <string.h>

#include "waiting.h"

#include "iscsi/iscsid.h"

/* No more commands wait for one flush. */
enum { MOST_WAITING = 64 };

/* How many times in a row tgtd finds no command, until the flush comes: if as many commands wait as shared
 * the last flush, and if fewer do. Whoever got a reply then often sends the next command soon. */
enum { QUIET_ROUNDS = 1, MOST_QUIET_ROUNDS = 24 };

/* The residual counts compare the lengths of data-in and data-out with what the initiator expects. tgtd's
 * counts have 32 bits with a sign. */
int deliver(struct scsi_cmd *cmd, const mdl_reply *reply)
{
    uint64_t asked = reply->data_out_length;

    scsi_set_in_resid_by_actual(cmd, (uint32_t)reply->data_in_length);
    scsi_set_out_resid_by_actual(cmd, asked < INT32_MAX ? (uint32_t)asked : INT32_MAX);
    memcpy(cmd->sense_buffer, reply->sense, reply->sense_length);
    cmd->sense_len = reply->sense_length;
    return reply->status;
}

/* tgtd calls this before it looks for input, in each round in which the event is scheduled. In one round it
 * reads at most one command of each connection. */
static void count_round(struct event_data *event)
{
    struct scsi_lu *lu = event->data;
    struct waiting *it = &unit_of(lu)->waiting;
    unsigned most = it->count < it->shared_last ? MOST_QUIET_ROUNDS : QUIET_ROUNDS;

    it->quiet_rounds = it->count == it->count_before ? it->quiet_rounds + 1 : 0;
    it->count_before = it->count;
    if (it->count >= MOST_WAITING || it->quiet_rounds >= most)
        end_waiting(lu);
    else
        tgt_add_sched_event(event);
}

void begin_waiting(struct scsi_lu *lu)
{
    struct waiting *it = &unit_of(lu)->waiting;

    memset(it, 0, sizeof *it);
    INIT_LIST_HEAD(&it->commands);
    tgt_init_sched_event(&it->round, count_round, lu);
}

void owe_flush(struct scsi_lu *lu)
{
    struct waiting *it = &unit_of(lu)->waiting;

    it->count++;
    tgt_add_sched_event(&it->round);
}

void wait_for_flush(struct scsi_cmd *cmd, int status)
{
    set_cmd_async(cmd);
    scsi_set_result(cmd, status);
    list_add_tail(&cmd->bs_list, &unit_of(cmd->dev)->waiting.commands);
    owe_flush(cmd->dev);
}

/* The reply of a disk whose file has failed to each command. */
static void read_failure(struct unit *unit, mdl_reply *reply)
{
    static const uint8_t test_unit_ready[6];

    mdl_execute(&unit->disk, 0, test_unit_ready, sizeof test_unit_ready, NULL, 0, NULL, 0, reply);
}

void end_waiting(struct scsi_lu *lu)
{
    struct unit *unit = unit_of(lu);
    struct waiting *it = &unit->waiting;
    struct scsi_cmd *cmd, *next;
    mdl_reply failure;
    mdl_error error;

    if (it->count == 0)
        return;
    tgt_remove_sched_event(&it->round);
    it->shared_last = it->count;
    it->count = it->count_before = it->quiet_rounds = 0;
    error = mdl_flush(&unit->disk);
    if (error) {
        eprintf("LUN %" PRIu64 ": %s can't be written: %u commands fail\n", lu->lun, unit->file,
                it->shared_last);
        read_failure(unit, &failure);
    }
    list_for_each_entry_safe(cmd, next, &it->commands, bs_list) {
        list_del(&cmd->bs_list);
        target_cmd_io_done(cmd, error ? deliver(cmd, &failure) : scsi_get_result(cmd));
    }
}

/* Stands for a logical unit that is gone. tgtd calls a command's logical unit after it has sent the reply. */
static struct scsi_lu gone = { .cmd_done = __cmd_done_passthrough };

static void leave(struct iscsi_task *task, const struct scsi_lu *lu)
{
    if (task_opcode(task) == ISCSI_OP_SCSI_CMD && task->scmd.dev == lu)
        task->scmd.dev = &gone;
}

void leave_unit(struct scsi_lu *lu)
{
    struct iscsi_connection *connection;
    struct iscsi_session *session;
    struct it_nexus *nexus;
    struct iscsi_task *task;

    list_for_each_entry(nexus, &lu->tgt->it_nexus_list, nexus_siblings) {
        session = session_lookup_by_tsih((uint16_t)nexus->itn_id);
        if (!session)
            continue;
        list_for_each_entry(connection, &session->conn_list, clist) {
            if (connection->tx_task)
                leave(connection->tx_task, lu);
            list_for_each_entry(task, &connection->tx_clist, c_list)
                leave(task, lu);
        }
    }
}
