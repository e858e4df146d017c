/* Commands to which the disk never replies.
 *
 * tgtd keeps such a command until it is ended here, and the initiator gets no response for it. A
 * task management function ends it, and so does a reset, a lost nexus, or the end of its connection
 * or of its logical unit. */
#ifndef HELD_H
#define HELD_H

#include "unit.h"

/* Keeps a command in place of a reply to it. */
void hold(struct scsi_cmd *cmd);

/* tgtd numbers no session so, and no command has such a tag. */
#define ANY_SESSION UINT64_C(0)
#define ANY_TAG UINT64_MAX

/* Ends the commands that are kept for a logical unit, came in this session and have this tag.
 * Returns how many these are. */
unsigned end_held(struct scsi_lu *lu, uint64_t session, uint64_t tag);

/* Ends the commands that are kept for a logical unit and came in the session of an initiator. */
void end_held_of(struct scsi_lu *lu, int initiator);

#endif
