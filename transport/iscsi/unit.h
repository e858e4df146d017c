/* The record of a logical unit, which tgtd keeps after its own. */
#ifndef UNIT_H
#define UNIT_H

#include <stdint.h>

#include "list.h"
#include "scsi.h"
#include "tgtd.h"
#include "target.h"

#include "mehdalung.h"
#include "ports.h"

/* The commands whose replies wait for a flush: waiting.h. */
struct waiting {
    struct list_head commands; /* by their field bs_list */
    unsigned count;            /* of those that owe the next flush, also if they get no reply */
    unsigned count_before;     /* the same, a round of tgtd before */
    unsigned quiet_rounds;     /* how many rounds in a row had no command that owes a flush */
    unsigned shared_last;      /* how many commands shared the last flush */
    struct event_data round;   /* is scheduled while a command owes a flush */
};

struct unit {
    mdl_disk disk;
    char *file; /* the path of the disk's file, without symbolic links; null: the disk is in memory */
    struct port_table table;
    struct refused_ports refused;
    uint64_t sessions[MOST_PORT_NUMBERS]; /* of the port that has the number; 0: none, or it was lost */
    struct list_head held;                /* commands without a reply, by their field bs_list */
    struct waiting waiting;
};

_Static_assert(MOST_PORT_NUMBERS == MDL_MOST_INITIATORS, "a number for each initiator");

static inline struct unit *unit_of(struct scsi_lu *lu)
{
    return (struct unit *)(void *)(lu + 1);
}

#endif
