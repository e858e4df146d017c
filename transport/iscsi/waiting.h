/* Commands whose replies wait for a flush of the disk's file.
 *
 * While WCE is 0, and after some commands at any time, a disk in a file flushes before a reply goes out. So
 * that several commands share a flush, each is executed without one, and its reply waits. A flush comes
 * if tgtd finds no more commands, or if many wait. After it all replies go out. If it fails, each of these
 * commands ends with the reply of a disk whose file has failed.
 *
 * Only commands are executed while others wait. Before anything else happens to the disk, `end_waiting`
 * ends those that wait. So no reset, task management function or lost session finds any. */
#ifndef WAITING_H
#define WAITING_H

#include "unit.h"

/* Begins to keep commands, for a logical unit that tgtd has just opened. */
void begin_waiting(struct scsi_lu *lu);

/* Hands a reply over to tgtd, except its status, which is returned. */
int deliver(struct scsi_cmd *cmd, const mdl_reply *reply);

/* The disk has executed a command that owes a flush, and a flush comes soon. */
void owe_flush(struct scsi_lu *lu);

/* The reply of a command that owes a flush has been delivered. It goes out after the flush, with this
 * status. */
void wait_for_flush(struct scsi_cmd *cmd, int status);

/* Flushes if a command owes that, and lets all replies that wait go out. */
void end_waiting(struct scsi_lu *lu);

/* The commands whose replies tgtd has not sent yet no longer name the logical unit, which tgtd frees next. */
void leave_unit(struct scsi_lu *lu);

#endif
