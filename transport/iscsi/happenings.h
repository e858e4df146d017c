/* Tells disks what happens to them beside commands: resets, lost sessions, and what a person asks
 * for.
 *
 * tgtd calls a backing store only for commands. So this file puts functions of its own in places
 * where tgtd calls others: for the responses of task management functions, and when it closes a
 * connection. It looks for lost sessions before each command of the logical unit. No command can
 * see that this is late. */
#ifndef HAPPENINGS_H
#define HAPPENINGS_H

#include "unit.h"

/* Begins to look, for a logical unit that tgtd has just opened. `store` is the backing store of the
 * logical units that have disks. */
void watch(struct scsi_lu *lu, const struct backingstore_template *store);

/* Tells the disk which sessions were lost since the last call. */
void notice(struct scsi_lu *lu);

/* Notes the session that a command of an initiator comes from. If this initiator's port logged in
 * again, the disk is told that its old session is lost. */
void note_session(struct scsi_lu *lu, int initiator, uint64_t session);

/* Called by tgtd with the parameter of `tgtadm --op update --mode logicalunit`, as tgtadm sends it:
 * "targetOps WORDS,". The words are a script's (docs/SCRIPT.md), such as "fault arrival busy". "faults"
 * writes the armed faults to tgtd's log, and "ports" which port is which initiator. "forget N" gives up a
 * number (numbers.h). */
tgtadm_err update(struct scsi_lu *lu, char *params);

#endif
