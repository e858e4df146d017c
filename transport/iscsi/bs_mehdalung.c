/* A backing store of tgtd, the iSCSI target of the package tgt. Each of its logical units is a disk
 * of libmehdalung. The disk gets each CDB as it came, and tgtd sends the disk's reply unchanged.
 *
 * tgtd loads this object from its folder of backing stores, or by LD_PRELOAD. A logical unit is
 * made with `--bstype mehdalung --backing-store blocks=4096:pool=16`. asked.h has what else the path
 * may be. All that calls this file runs in tgtd's main thread, and so do the disks. */
#include <errno.h>
#include <inttypes.h>
#include <stdint.h>
#include <stdio.h>
#include <stdlib.h>
#include <string.h>
#include <sys/random.h>

#include "unit.h"
#include "absent.h"
#include "asked.h"
#include "happenings.h"
#include "held.h"
#include "kept.h"
#include "kept_ports.h"
#include "numbers.h"
#include "preempting.h"
#include "trace.h"
#include "waiting.h"

_Static_assert((int)NO_NUMBER == (int)NO_INITIATOR, "a port without a number is no initiator");

static uint8_t data_in[MDL_BUFFER_LENGTH];

static struct backingstore_template store;

/* Returns 1 if a command may share its flush with others. Those before an ORDERED command have to end first,
 * and those after it later (SAM-5, 8.6). */
static int shares_flush(const struct scsi_cmd *cmd)
{
    return unit_of(cmd->dev)->file && cmd->attribute != MSG_ORDERED_TAG;
}

/* Executes a command. The disk writes data-in to a buffer. */
static mdl_error execute_into(struct scsi_cmd *cmd, uint32_t initiator, uint8_t *buffer,
                              size_t length, mdl_reply *reply)
{
    return (shares_flush(cmd) ? mdl_execute_unflushed : mdl_execute)(
        &unit_of(cmd->dev)->disk, initiator, cmd->scb, (size_t)cmd->scb_len, scsi_get_out_buffer(cmd),
        scsi_get_out_length(cmd), buffer, length, reply);
}

/* Gives the initiator as much of data-in as fits into tgtd's buffer. */
static void give_data_in(struct scsi_cmd *cmd, const uint8_t *bytes, const mdl_reply *reply)
{
    size_t length = scsi_get_in_length(cmd);

    if (length > reply->data_in_length)
        length = reply->data_in_length;
    if (length > 0)
        memcpy(scsi_get_in_buffer(cmd), bytes, length);
}

/* Executes a command. tgtd's buffer may be too short for its data-in: the initiator then gets what
 * fits in there. */
static mdl_error execute_command(struct scsi_cmd *cmd, uint32_t initiator, mdl_reply *reply)
{
    size_t length = scsi_get_in_length(cmd);
    mdl_error error = execute_into(cmd, initiator, scsi_get_in_buffer(cmd), length, reply);

    if (error != MDL_BUFFER_TOO_SHORT)
        return error;
    error = execute_into(cmd, initiator, data_in, sizeof data_in, reply);
    if (!error || error == MDL_FLUSH_OWED)
        give_data_in(cmd, data_in, reply);
    return error;
}

/* Executes a command of a port that has no number. */
static void execute_without_disk(struct scsi_cmd *cmd, mdl_reply *reply)
{
    uint8_t bytes[MOST_ABSENT_DATA_IN];

    execute_absent(cmd->scb, bytes, reply);
    give_data_in(cmd, bytes, reply);
}

/* A line for a command and its reply, in the log of tgtd while its debug messages are on. */
static void trace(struct scsi_cmd *cmd, int initiator, const mdl_reply *reply)
{
    const struct traced traced = { initiator, cmd->scb, (size_t)get_scsi_cdb_size(cmd),
                                   scsi_get_out_length(cmd) };
    char line[TRACE_LENGTH + 1];

    write_trace(line, &traced, reply);
    dprintf("TRACE %s\n", line);
}

/* Executes a command, and notes its initiator's session. PREEMPT AND ABORT ends the held commands
 * of initiators that lose their registrations (SPC-4, 5.13). */
static mdl_error execute_of_session(struct scsi_cmd *cmd, int initiator, mdl_reply *reply)
{
    int preempts = is_preempt_and_abort(cmd->scb, (size_t)cmd->scb_len);
    uint64_t lost = preempts ? registered_initiators(cmd->dev) : 0;
    mdl_error error;
    int other;

    if (preempts || !shares_flush(cmd))
        end_waiting(cmd->dev);
    note_session(cmd->dev, initiator, cmd->it_nexus->itn_id);
    error = execute_command(cmd, (uint32_t)initiator, reply);
    if (preempts)
        lost &= ~registered_initiators(cmd->dev);
    for (other = 0; other < MOST_PORT_NUMBERS; other++)
        if (lost >> other & 1)
            end_held_of(cmd->dev, other);
    return error;
}

/* Called by tgtd for each command, with the whole of its data-out. A port whose number can't be kept now
 * gets BUSY. tgtd sends the status that is returned, unless the command is held or its reply waits for a
 * flush. */
static int execute(int tid, struct scsi_cmd *cmd)
{
    int initiator, status;
    mdl_reply reply;
    mdl_error error = MDL_OK;

    (void)tid;
    notice(cmd->dev);
    initiator = initiator_of(cmd);
    if (initiator == NUMBER_NOT_KEPT) {
        scsi_set_in_resid_by_actual(cmd, 0);
        return SAM_STAT_BUSY;
    }
    if (initiator == NO_NUMBER)
        execute_without_disk(cmd, &reply);
    else
        error = execute_of_session(cmd, initiator, &reply);
    if (error && error != MDL_FLUSH_OWED) {
        scsi_set_in_resid_by_actual(cmd, 0);
        sense_data_build(cmd, HARDWARE_ERROR, ASC_INTERNAL_TGT_FAILURE);
        return SAM_STAT_CHECK_CONDITION;
    }
    if (is_debug)
        trace(cmd, initiator, &reply);
    if (reply.status == MDL_NO_REPLY) {
        hold(cmd);
        if (error == MDL_FLUSH_OWED)
            owe_flush(cmd->dev);
        return SAM_STAT_GOOD;
    }
    status = deliver(cmd, &reply);
    if (error == MDL_FLUSH_OWED)
        wait_for_flush(cmd, status);
    return status;
}

/* The seed of a new logical unit that asks for none. An extended disk gets a random one. A base disk has
 * a number of its own in this tgtd: LUN 1 of target 1 has 1, which makes the standard identity. */
static int choose_seed(const struct scsi_lu *lu, struct asked *asked)
{
    if (asked->has_seed)
        return 1;
    if (asked->profile == MDL_PROFILE_BASE) {
        asked->seed = (uint32_t)(lu->tgt->tid - 1) << 16 | (uint32_t)(lu->lun & 0xFFFF);
        return 1;
    }
    if (getrandom(&asked->seed, sizeof asked->seed, 0) != sizeof asked->seed)
        return 0;
    asked->seed >>= 4; /* 60 bits */
    return 1;
}

/* Returns the error of numbers that no disk has. For mdl_open 0 would be any number. */
static mdl_error check_sizes(const struct asked *asked)
{
    if (asked->has_blocks && !asked->blocks)
        return MDL_BLOCKS;
    return asked->has_pool && (!asked->pool || asked->pool > UINT32_MAX) ? MDL_POOL : MDL_OK;
}

/* Makes the disk of a logical unit, or opens it. Returns 0 if that fails, with a text of why. The disk
 * that a file has keeps its names, if no seed is asked for, and its profile. A new one is an extended disk,
 * if no profile is asked for. */
static int make_disk(struct scsi_lu *lu, struct asked *asked, char *reason)
{
    int is_new = !asked->file || is_without_disk(asked->file);
    mdl_identity identity;
    struct wanted wanted = { .blocks = asked->blocks, .pool = (uint32_t)asked->pool };
    mdl_error error = check_sizes(asked);

    if (is_new && asked->profile == MDL_ANY_PROFILE)
        asked->profile = MDL_PROFILE_EXTENDED;
    wanted.profile = asked->profile;
    if (is_new && !choose_seed(lu, asked)) {
        strcpy(reason, "there are no random bytes for a seed");
        return 0;
    }
    if (!error && (is_new || asked->has_seed)) {
        error = mdl_identity_of_seed(asked->seed, &identity);
        wanted.identity = &identity;
    }
    if (!error && asked->file)
        return open_kept(&unit_of(lu)->disk, asked->file, &wanted, reason);
    if (!error)
        error = mdl_make_with_profile(&unit_of(lu)->disk, wanted.profile, wanted.blocks, wanted.pool,
                                      wanted.identity);
    if (error)
        strcpy(reason, text_of_error(error));
    return !error;
}

/* Reads the numbers of ports that are kept beside the disk's file. Returns 0 if that fails, with a text
 * of why, and the disk is closed. */
static int open_ports(struct scsi_lu *lu, const char *file, char *reason)
{
    struct unit *unit = unit_of(lu);
    int error, number;

    unit->file = realpath(file, NULL);
    error = unit->file ? read_ports(&unit->table, unit->file) : errno;
    if (error) {
        snprintf(reason, REASON_LENGTH, "%.4000s%s: %s", file, unit->file ? PORTS_SUFFIX : "",
                 error == EBADMSG ? "the file has no ports, or is damaged" : strerror(error));
        mdl_free(&unit->disk);
        free(unit->file);
        unit->file = NULL;
        return 0;
    }
    eprintf("LUN %" PRIu64 ": the disk is in %s\n", lu->lun, unit->file);
    for (number = 0; number < unit->table.numbers; number++)
        if (unit->table.last_use[number])
            log_number(lu, number, &unit->table.ports[number]);
    return 1;
}

/* A new table, without ports: each initiator of the disk is a number. */
static void begin_ports(struct unit *unit)
{
    uint32_t initiators = 0;

    mdl_initiators(&unit->disk, &initiators);
    port_clear(&unit->table, (int)initiators);
    memset(&unit->refused, 0, sizeof unit->refused);
}

/* Makes or opens the disk that is asked for, with its ports. Returns 0 if that fails, with a text of why. */
static int open_asked(struct scsi_lu *lu, struct asked *asked, char *reason)
{
    if (!make_disk(lu, asked, reason))
        return 0;
    begin_ports(unit_of(lu));
    return !asked->file || open_ports(lu, asked->file, reason);
}

static int open_disk(struct scsi_lu *lu, char *path, int *fd, uint64_t *size)
{
    struct unit *unit = unit_of(lu);
    char reason[REASON_LENGTH];
    struct asked asked;

    if (!read_asked(path, &asked)) {
        eprintf("no disk: %s is not blocks=N:pool=N[:profile=NAME][:seed=N][:file=PATH]\n", path);
        return -EINVAL;
    }
    unit->file = NULL;
    if (!open_asked(lu, &asked, reason)) {
        eprintf("no disk: %s\n", reason);
        return -EINVAL;
    }
    INIT_LIST_HEAD(&unit->held);
    begin_waiting(lu);
    watch(lu, &store);
    *fd = -1;
    *size = asked.blocks * MDL_BLOCK_LENGTH;
    return 0;
}

/* The disk is flushed. If that fails, `target stop` says so. */
static void close_disk(struct scsi_lu *lu)
{
    struct unit *unit = unit_of(lu);

    end_held(lu, ANY_SESSION, ANY_TAG);
    end_waiting(lu);
    leave_unit(lu);
    if (mdl_close(&unit->disk))
        eprintf("not kept: %s: the file may lack a part of what was changed\n",
                unit->file ? unit->file : "a disk in memory");
    free(unit->file);
    unit->file = NULL;
}

/* Each CDB of this logical unit is for `execute`, and none for the device type's own functions. */
static tgtadm_err init_unit(struct scsi_lu *lu, char *options)
{
    (void)options;
    lu->cmd_perform = target_cmd_perform_passthrough;
    lu->cmd_done = __cmd_done_passthrough;
    lu->dev_type_template.cmd_passthrough = execute;
    lu->dev_type_template.lu_config = update;
    return TGTADM_SUCCESS;
}

static struct backingstore_template store = {
    .bs_name = "mehdalung",
    .bs_datasize = sizeof(struct unit),
    .bs_init = init_unit,
    .bs_open = open_disk,
    .bs_close = close_disk
};

/* Called by the dynamic linker, whichever way the object is loaded. */
__attribute__((constructor)) static void register_store(void)
{
    register_backingstore_template(&store);
}

/* tgtd asks for this name in what it loads from its folder, and calls it. */
__attribute__((visibility("default"))) void register_bs_module(void);

void register_bs_module(void)
{
}
