/* Not proved. See trace.h. */
#include "trace.h"

#include <stdio.h>
#include <string.h>

static void write_reply(char *text, size_t length, const mdl_reply *reply)
{
    mdl_sense sense;

    if (reply->status == MDL_NO_REPLY) {
        snprintf(text, length, "no reply");
        return;
    }
    if (mdl_read_sense(reply->sense, reply->sense_length, &sense))
        memset(&sense, 0, sizeof sense);
    snprintf(text, length, "status %02x, sense %x/%02x/%02x, data-in %zu", reply->status, sense.key,
             sense.asc, sense.ascq, reply->data_in_length);
}

void write_trace(char *line, const struct traced *command, const mdl_reply *reply)
{
    char who[32] = "no initiator", cdb[2 * TRACED_CDB + 1] = "", text[64];
    size_t at;

    if (command->initiator != NO_INITIATOR)
        snprintf(who, sizeof who, "initiator %d", command->initiator);
    for (at = 0; at < command->cdb_length && at < TRACED_CDB; at++)
        snprintf(cdb + 2 * at, 3, "%02x", command->cdb[at]);
    write_reply(text, sizeof text, reply);
    snprintf(line, TRACE_LENGTH + 1, "%s, %s, data-out %zu: %s", who, cdb, command->data_out_length, text);
}
