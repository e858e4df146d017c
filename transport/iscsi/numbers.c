/* See numbers.h. */
#include <inttypes.h>
#include <stdio.h>
#include <string.h>

#include "numbers.h"
#include "driver.h"
#include "kept_ports.h"
#include "preempting.h"
#include "waiting.h"

/* PTPL_A in the capabilities of PERSISTENT RESERVE IN, and APTPL in the list of PERSISTENT RESERVE OUT
 * (SPC-4, 6.15.4 and 6.16.3): their bytes, and their common bit. */
enum { CAPABILITIES_LENGTH = 8, PTPL_A_AT = 3, LIST_LENGTH = 24, APTPL_AT = 20, PERSISTS = 0x01 };

/* The initiator port of a session, or 0 if there is none with a TransportID that fits. */
static int get_port(const struct target *target, uint64_t session, struct port *port)
{
    char transport_id[TRANSPORT_ID_LENGTH];
    int length = tgt_drivers[target->lid]->transportid(target->tid, session, transport_id,
                                                       TRANSPORT_ID_LENGTH);

    if (length <= 0 || length > TRANSPORT_ID_LENGTH)
        return 0;
    port_read(port, transport_id);
    return 1;
}

/* Bit i is set if the port that has number i has a session. */
static uint64_t numbers_with_session(struct scsi_lu *lu)
{
    struct it_nexus *nexus;
    struct port port;
    uint64_t found = 0;
    int number;

    list_for_each_entry(nexus, &lu->tgt->it_nexus_list, nexus_siblings) {
        number = NO_NUMBER;
        if (get_port(lu->tgt, nexus->itn_id, &port))
            number = port_number(&unit_of(lu)->table, &port);
        if (number != NO_NUMBER)
            found |= UINT64_C(1) << number;
    }
    return found;
}

uint64_t registered_initiators(struct scsi_lu *lu)
{
    return registered_mask(&unit_of(lu)->disk);
}

void log_number(const struct scsi_lu *lu, int number, const struct port *port)
{
    eprintf("LUN %" PRIu64 ": initiator %d is %s\n", lu->lun, number, port->text);
}

/* Puts a changed table beside the disk's file, if it has one. Returns 0 if that fails. */
static int keep_ports(struct scsi_lu *lu, const struct port_table *table)
{
    const char *file = unit_of(lu)->file;
    int error = file ? write_ports(table, file) : 0;

    if (error)
        eprintf("LUN %" PRIu64 ": %s" PORTS_SUFFIX ": %s\n", lu->lun, file, strerror(error));
    return !error;
}

/* Makes an initiator's unit attentions those of power on, for the next port. Commands that wait for a flush
 * end first. A disk whose file has failed changes nothing, and reports none. */
static void begin_anew(struct scsi_lu *lu, int number)
{
    const mdl_happening power_on = { .kind = MDL_ATTENTION, .asc = 0x29, .ascq = 0x00,
                                     .initiators = UINT64_C(1) << number };

    end_waiting(lu);
    mdl_forget(&unit_of(lu)->disk, (uint32_t)number);
    mdl_happen(&unit_of(lu)->disk, &power_on);
}

/* Gives a number to a port that has none, in a copy of the table. */
static int choose_number(struct scsi_lu *lu, const struct port *port, struct port_table *next)
{
    *next = unit_of(lu)->table;
    return port_take_number(next, port, registered_initiators(lu) | numbers_with_session(lu));
}

/* Gives a number to a port that has none. It is kept before the port gets a reply. */
static int take_number(struct scsi_lu *lu, const struct port *port)
{
    struct unit *unit = unit_of(lu);
    static struct port_table next;
    int number = choose_number(lu, port, &next);

    if (number == NO_NUMBER) {
        if (port_refuse(&unit->refused, port))
            eprintf("LUN %" PRIu64 ": no disk for %s: each of the %d initiators has a session or is "
                    "registered\n", lu->lun, port->text, next.numbers);
        return NO_NUMBER;
    }
    if (!keep_ports(lu, &next))
        return NUMBER_NOT_KEPT;
    if (unit->table.last_use[number])
        begin_anew(lu, number);
    unit->table = next;
    port_accept(&unit->refused, port);
    log_number(lu, number, port);
    return number;
}

int initiator_of(struct scsi_cmd *cmd)
{
    struct scsi_lu *lu = cmd->dev;
    struct port_table *table = &unit_of(lu)->table;
    struct port port;
    int number;

    if (!get_port(lu->tgt, cmd->it_nexus->itn_id, &port))
        return NO_NUMBER;
    number = port_number(table, &port);
    if (number == NO_NUMBER)
        return take_number(lu, &port);
    port_use(table, number);
    return number;
}

int finds_number(struct scsi_lu *lu, uint64_t session)
{
    static struct port_table next;
    struct port port;

    return get_port(lu->tgt, session, &port)
           && (port_number(&unit_of(lu)->table, &port) != NO_NUMBER
               || choose_number(lu, &port, &next) != NO_NUMBER);
}

tgtadm_err log_ports(struct scsi_lu *lu)
{
    static const char *const states[] = { "free", "session", "registered", "session, registered" };
    const struct port_table *table = &unit_of(lu)->table;
    uint64_t registered = registered_initiators(lu), present = numbers_with_session(lu);
    int number;

    for (number = 0; number < table->numbers; number++)
        if (table->last_use[number])
            eprintf("PORT initiator %d is %s: %s\n", number, table->ports[number].text,
                    states[(registered >> number & 1) * 2 + (present >> number & 1)]);
    return TGTADM_SUCCESS;
}

/* Executes a PERSISTENT RESERVE of an initiator. Returns 0 unless it ends with GOOD. */
static int reserve(struct scsi_lu *lu, int initiator, const uint8_t *cdb, const uint8_t *list, size_t length,
                   uint8_t *data_in)
{
    mdl_reply reply;
    mdl_error error = mdl_execute(&unit_of(lu)->disk, (uint32_t)initiator, cdb, 10, list, length, data_in,
                                  data_in ? CAPABILITIES_LENGTH : 0, &reply);

    return !error && reply.status == MDL_GOOD;
}

/* Removes the registration of an initiator, as its port does by a key of 0. APTPL stays as it was, for the
 * other registrations. Returns 0 if that fails. */
static int unregister(struct scsi_lu *lu, int initiator)
{
    static const uint8_t report_capabilities[10] = {
        PERSISTENT_RESERVE_IN, PR_IN_REPORT_CAPABILITIES, [8] = CAPABILITIES_LENGTH
    };
    static const uint8_t unregister_cdb[10] = {
        PERSISTENT_RESERVE_OUT, PR_OUT_REGISTER_AND_IGNORE_EXISTING_KEY, [8] = LIST_LENGTH
    };
    uint8_t capabilities[CAPABILITIES_LENGTH], list[LIST_LENGTH] = { 0 };

    mdl_forget(&unit_of(lu)->disk, (uint32_t)initiator);
    if (!reserve(lu, initiator, report_capabilities, NULL, 0, capabilities))
        return 0;
    list[APTPL_AT] = capabilities[PTPL_A_AT] & PERSISTS;
    return reserve(lu, initiator, unregister_cdb, list, sizeof list, NULL);
}

/* Returns why a number can't be given up, or null. */
static const char *why_not_forgotten(struct scsi_lu *lu, int number, int with_registration)
{
    uint64_t bit = UINT64_C(1) << number;

    if (!unit_of(lu)->table.last_use[number])
        return "has no port";
    if (numbers_with_session(lu) & bit)
        return "has a session";
    if (!(registered_initiators(lu) & bit))
        return NULL;
    if (!with_registration)
        return "is registered";
    return unregister(lu, number) ? NULL : "stays registered: the disk refuses the command";
}

static tgtadm_err forget_number(struct scsi_lu *lu, int number, int with_registration)
{
    static const struct port nobody = { "no port" };
    struct unit *unit = unit_of(lu);
    static struct port_table next;
    const char *why;

    end_waiting(lu);
    why = why_not_forgotten(lu, number, with_registration);
    next = unit->table;
    port_give_up_number(&next, number);
    if (!why && !keep_ports(lu, &next))
        why = "keeps its port: the file of ports can't be written";
    if (why) {
        eprintf("not forgotten: initiator %d %s\n", number, why);
        return TGTADM_INVALID_REQUEST;
    }
    begin_anew(lu, number);
    unit->table = next;
    log_number(lu, number, &nobody);
    if (is_debug)
        dprintf("TRACE initiator %d, forgotten\n", number);
    return TGTADM_SUCCESS;
}

tgtadm_err forget_port(struct scsi_lu *lu, const char *words)
{
    int number = port_read_number(&unit_of(lu)->table, &words);

    if (number == NO_NUMBER)
        return TGTADM_UNKNOWN_PARAM;
    if (strcmp(words, " registered") == 0)
        return forget_number(lu, number, 1);
    return *words ? TGTADM_UNKNOWN_PARAM : forget_number(lu, number, 0);
}
