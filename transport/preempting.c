/* Not proved. See preempting.h. */
#include "preempting.h"

/* PERSISTENT RESERVE OUT (SPC-4, 6.16). SERVICE ACTION is in byte 1. */
enum { PERSISTENT_RESERVE_OUT = 0x5F, SERVICE_ACTION_BITS = 0x1F, PREEMPT_AND_ABORT = 0x05 };

int is_preempt_and_abort(const uint8_t *cdb, size_t length)
{
    return length >= 2 && cdb[0] == PERSISTENT_RESERVE_OUT &&
           (cdb[1] & SERVICE_ACTION_BITS) == PREEMPT_AND_ABORT;
}

uint64_t registered_mask(mdl_disk *disk)
{
    uint64_t mask = 0;

    mdl_registered(disk, &mask);
    return mask;
}
