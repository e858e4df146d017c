/* See held.h. */
#include <stdio.h>

#include "held.h"

#include "iscsi/iscsid.h"

/* tgtd waits for the end of a command that is asynchronous. It lists no command of a passthrough
 * logical unit, so no task management function of its own finds it. */
void hold(struct scsi_cmd *cmd)
{
    set_cmd_async(cmd);
    list_add_tail(&cmd->bs_list, &unit_of(cmd->dev)->held);
}

unsigned end_held(struct scsi_lu *lu, uint64_t session, uint64_t tag)
{
    struct scsi_cmd *cmd, *next;
    unsigned ended = 0;

    list_for_each_entry_safe(cmd, next, &unit_of(lu)->held, bs_list) {
        if ((session != ANY_SESSION && cmd->cmd_itn_id != session)
            || (tag != ANY_TAG && cmd->tag != tag))
            continue;
        list_del(&cmd->bs_list);
        iscsi_free_cmd_task(container_of(cmd, struct iscsi_task, scmd));
        ended++;
    }
    return ended;
}

void end_held_of(struct scsi_lu *lu, int initiator)
{
    uint64_t session = unit_of(lu)->sessions[initiator];

    if (session)
        end_held(lu, session, ANY_TAG);
}
