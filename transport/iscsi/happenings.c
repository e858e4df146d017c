/* See happenings.h. */
#include <inttypes.h>
#include <stdio.h>
#include <stdlib.h>
#include <string.h>

#include "happenings.h"
#include "driver.h"
#include "held.h"
#include "numbers.h"
#include "waiting.h"
#include "iscsi/iscsid.h"

/* Of session numbers, which have 16 bits and count up. */
enum { HALF_OF_ALL_SESSIONS = 1 << 15 };

static const struct backingstore_template *own_store;

static const char *name_of(uint32_t kind)
{
    switch (kind) {
    case MDL_POWER_CYCLE: return "power cycle";
    case MDL_LOGICAL_UNIT_RESET: return "logical unit reset";
    case MDL_TARGET_RESET: return "target reset";
    case MDL_GROW: return "growth";
    case MDL_ATTENTION: return "unit attention";
    case MDL_ARM: return "fault";
    case MDL_DISARM: case MDL_DISARM_ALL: return "heal";
    default: return "I_T nexus loss";
    }
}

/* A power cycle and a reset end each command of the disk. A lost nexus ends those of its initiator
 * (SAM-5, 6.3). Only held commands have not ended by then, because those that wait have. */
static void end_commands(struct scsi_lu *lu, const mdl_happening *happening)
{
    switch (happening->kind) {
    case MDL_POWER_CYCLE: case MDL_LOGICAL_UNIT_RESET: case MDL_TARGET_RESET:
        end_held(lu, ANY_SESSION, ANY_TAG);
        break;
    case MDL_NEXUS_LOSS:
        end_held_of(lu, (int)happening->initiator);
        break;
    default: break;
    }
}

/* Tells the disk, and writes a line to tgtd's log while its debug messages are on. Returns the disk's
 * error. */
static mdl_error happen(struct scsi_lu *lu, const mdl_happening *happening)
{
    mdl_error error;

    end_waiting(lu);
    error = mdl_happen(&unit_of(lu)->disk, happening);
    if (error) {
        eprintf("LUN %" PRIu64 ": no %s: error %d of mehdalung.h\n", lu->lun,
                name_of(happening->kind), (int)error);
        return error;
    }
    end_commands(lu, happening);
    if (is_debug && happening->kind == MDL_NEXUS_LOSS)
        dprintf("TRACE initiator %u, %s\n", happening->initiator, name_of(happening->kind));
    else if (is_debug)
        dprintf("TRACE %s\n", name_of(happening->kind));
    return MDL_OK;
}

static void lose_nexus(struct scsi_lu *lu, int initiator)
{
    mdl_happening loss = { .kind = MDL_NEXUS_LOSS, .initiator = (uint32_t)initiator };

    happen(lu, &loss);
}

/* Bit i is set if the session of initiator i is among tgtd's. */
static uint64_t initiators_in_session(struct scsi_lu *lu)
{
    const struct unit *unit = unit_of(lu);
    const struct it_nexus *nexus;
    uint64_t found = 0;
    int initiator;

    list_for_each_entry(nexus, &lu->tgt->it_nexus_list, nexus_siblings)
        for (initiator = 0; initiator < unit->table.numbers; initiator++)
            if (unit->sessions[initiator] == nexus->itn_id)
                found |= UINT64_C(1) << initiator;
    return found;
}

void notice(struct scsi_lu *lu)
{
    struct unit *unit = unit_of(lu);
    uint64_t present = initiators_in_session(lu);
    int initiator;

    for (initiator = 0; initiator < unit->table.numbers; initiator++)
        if (unit->sessions[initiator] && !(present >> initiator & 1)) {
            unit->sessions[initiator] = 0;
            lose_nexus(lu, initiator);
        }
}

/* tgtd lets a port log in again without ending its old session. The old one is lost with the first
 * command of the new one, whose number is greater. */
void note_session(struct scsi_lu *lu, int initiator, uint64_t session)
{
    uint64_t *last = &unit_of(lu)->sessions[initiator];

    if (*last && (uint16_t)(session - *last) >= HALF_OF_ALL_SESSIONS)
        return;
    if (*last && *last != session)
        lose_nexus(lu, initiator);
    *last = session;
}

/* tgtd keeps a unit attention of its own for each session and each reset, which nobody reads. */
static void forget_tgtds_attentions(struct scsi_lu *lu)
{
    struct it_nexus_lu_info *info;

    list_for_each_entry(info, &lu->lu_itl_info_list, lu_itl_info_siblings)
        ua_sense_clear(info, ASC_POWERON_RESET);
}

static void reset_unit(struct scsi_lu *lu)
{
    static const mdl_happening reset = { .kind = MDL_LOGICAL_UNIT_RESET };

    notice(lu);
    forget_tgtds_attentions(lu);
    happen(lu, &reset);
}

/* Tells each disk of a target of its reset. Returns 0 if a disk refuses it. */
static int reset_target(const struct target *target)
{
    static const mdl_happening reset = { .kind = MDL_TARGET_RESET };
    struct scsi_lu *lu;
    int is_done = 1;

    list_for_each_entry(lu, &target->device_list, device_siblings)
        if (lu->bst == own_store) {
            notice(lu);
            is_done &= happen(lu, &reset) == MDL_OK;
        }
    return is_done;
}

/* The target of a connection, or null if the connection has no session. */
static const struct target *target_of(const struct iscsi_connection *connection)
{
    const struct iscsi_session *session = connection->session;
    const struct it_nexus *nexus = NULL;

    if (session)
        nexus = it_nexus_lookup(session->target->tid, session->tsih);
    return nexus ? nexus->nexus_target : NULL;
}

/* Does for a disk what a task management function asks for. tgtd does not know held commands: for
 * it, a command to be aborted does not exist. Returns 0 if a reset is for the disk, and there is no disk for
 * the port that sends it. */
static int perform(struct scsi_lu *lu, struct mgmt_req *request, struct iscsi_task *task)
{
    struct iscsi_tm *function = (struct iscsi_tm *)&task->req;
    int is_addressed = scsi_get_devid(lu->tgt->lid, function->lun) == lu->lun;
    uint64_t session = task->conn->session->tsih;

    end_waiting(lu);
    if (request->function == ABORT_TASK && end_held(lu, session, function->rtt) > 0) {
        request->result = 0;
    } else if (request->function == ABORT_TASK_SET && is_addressed) {
        end_held(lu, session, ANY_TAG);
    } else if (request->function == LOGICAL_UNIT_RESET && is_addressed) {
        if (!finds_number(lu, session))
            return 0;
        reset_unit(lu);
    }
    return 1;
}

static int (*end_function)(struct mgmt_req *request);

/* tgtd calls this function in place of its own before it sends the response of a task management
 * function. tgtd's puts the response at the end of the connection's list, or frees it if the connection is
 * closed. */
static int watch_functions(struct mgmt_req *request)
{
    struct iscsi_task *task = (struct iscsi_task *)(uintptr_t)request->mid;
    const struct target *target = target_of(task->conn);
    int is_open = task->conn->state != STATE_CLOSE, has_disk = 1, result;
    struct scsi_lu *lu;

    if (target)
        list_for_each_entry(lu, &target->device_list, device_siblings)
            if (lu->bst == own_store)
                has_disk &= perform(lu, request, task);
    result = end_function(request);
    if (!has_disk && is_open)
        task->result = ISCSI_TMF_RSP_NO_LUN;
    return result;
}

static size_t (*close_connection)(struct iscsi_connection *connection);

/* tgtd calls this function in place of its own when it closes a connection. It frees the connection
 * and its session after the last of its commands has ended. */
static size_t watch_close(struct iscsi_connection *connection)
{
    const struct target *target = target_of(connection);
    struct scsi_lu *lu;

    if (target)
        list_for_each_entry(lu, &target->device_list, device_siblings)
            if (lu->bst == own_store) {
                end_waiting(lu);
                end_held(lu, connection->session->tsih, ANY_TAG);
            }
    return close_connection(connection);
}

/* tgtd refuses target resets, without asking anybody. */
static int is_refused_target_reset(const struct iscsi_task *task)
{
    int function = ((const struct iscsi_tm *)&task->req)->flags & ISCSI_FLAG_TM_FUNC_MASK;

    return task_opcode(task) == ISCSI_OP_SCSI_TMFUNC && task->result == ISCSI_TMF_RSP_NOT_SUPPORTED
           && (function == ISCSI_TM_FUNC_TARGET_WARM_RESET
               || function == ISCSI_TM_FUNC_TARGET_COLD_RESET);
}

static void (*modify_events)(struct iscsi_connection *connection, int events);

/* tgtd puts a response at the end of the connection's list. Then it calls this function in place of
 * its own. So a refused target reset is done, and its response becomes FUNCTION COMPLETE. The replies of
 * commands that wait for a flush come before it. */
static void watch_responses(struct iscsi_connection *connection, int events)
{
    struct iscsi_task *last = list_entry(connection->tx_clist.prev, struct iscsi_task, c_list);
    const struct target *target = NULL;

    if (!list_empty(&connection->tx_clist) && is_refused_target_reset(last))
        target = target_of(connection);
    if (target) {
        list_del(&last->c_list);
        if (reset_target(target))
            last->result = ISCSI_TMF_RSP_COMPLETE;
        list_add_tail(&last->c_list, &connection->tx_clist);
    }
    modify_events(connection, events);
}

/* tgtd's list of transports has no name outside tgtd. A transport that registers is in the list,
 * and TCP's is found from there. */
static struct iscsi_transport *find_transport(void)
{
    static struct iscsi_transport probe;
    struct iscsi_transport *transport = &probe;

    iscsi_transport_register(&probe);
    do
        transport = list_entry(transport->iscsi_transport_siblings.prev, struct iscsi_transport,
                               iscsi_transport_siblings);
    while (strcmp(transport->name, "iscsi") != 0);
    list_del(&probe.iscsi_transport_siblings);
    return transport;
}

void watch(struct scsi_lu *lu, const struct backingstore_template *store)
{
    struct tgt_driver *driver = tgt_drivers[lu->tgt->lid];
    struct iscsi_transport *transport;

    memset(unit_of(lu)->sessions, 0, sizeof unit_of(lu)->sessions);
    if (own_store)
        return;
    own_store = store;
    transport = find_transport();
    modify_events = transport->ep_event_modify;
    transport->ep_event_modify = watch_responses;
    close_connection = transport->ep_close;
    transport->ep_close = watch_close;
    end_function = driver->mgmt_end_notify;
    driver->mgmt_end_notify = watch_functions;
}

/* Writes a line to tgtd's log for each line of the text about the armed faults. */
static tgtadm_err log_faults(struct scsi_lu *lu)
{
    size_t length = mdl_faults(&unit_of(lu)->disk, NULL, 0);
    char *text = length == MDL_NO_TEXT ? NULL : malloc(length + 1);
    char *line, *rest;

    if (!text)
        return TGTADM_NOMEM;
    mdl_faults(&unit_of(lu)->disk, text, length + 1);
    for (line = strtok_r(text, "\n", &rest); line; line = strtok_r(NULL, "\n", &rest))
        eprintf("FAULT %s\n", line);
    free(text);
    return TGTADM_SUCCESS;
}

/* Does what words of a script's line ask for. An initiator that the disk does not have is a wrong word. */
static tgtadm_err happen_by_words(struct scsi_lu *lu, const char *words)
{
    mdl_happening happening;
    mdl_error error;

    if (mdl_read_happening(words, &happening))
        return TGTADM_UNKNOWN_PARAM;
    if (happening.kind == MDL_TARGET_RESET)
        return reset_target(lu->tgt) ? TGTADM_SUCCESS : TGTADM_INVALID_REQUEST;
    error = happen(lu, &happening);
    if (error)
        return error == MDL_NO_INITIATOR ? TGTADM_UNKNOWN_PARAM : TGTADM_INVALID_REQUEST;
    if (happening.kind == MDL_GROW && happening.blocks * MDL_BLOCK_LENGTH > lu->size)
        lu->size = happening.blocks * MDL_BLOCK_LENGTH;
    return TGTADM_SUCCESS;
}

tgtadm_err update(struct scsi_lu *lu, char *params)
{
    static const char prefix[] = "targetOps ", forget[] = "forget ";
    size_t length = strlen(params);
    const char *words = params + sizeof prefix - 1;

    if (strncmp(params, prefix, sizeof prefix - 1) != 0 || params[length - 1] != ',')
        return TGTADM_UNKNOWN_PARAM;
    params[length - 1] = '\0';
    notice(lu);
    if (strcmp(words, "faults") == 0)
        return log_faults(lu);
    if (strcmp(words, "ports") == 0)
        return log_ports(lu);
    if (strncmp(words, forget, sizeof forget - 1) == 0)
        return forget_port(lu, words + sizeof forget - 1);
    return happen_by_words(lu, words);
}
