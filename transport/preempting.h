/* Not proved. PREEMPT AND ABORT, which ends commands of the initiators that lose their registrations (SPC-4,
 * 5.13). */
#ifndef PREEMPTING_H
#define PREEMPTING_H

#include "mehdalung.h"

/* Returns 1 if a CDB is PERSISTENT RESERVE OUT with the service action PREEMPT AND ABORT. */
int is_preempt_and_abort(const uint8_t *cdb, size_t length);

/* Returns a mask of the registered initiators. */
uint64_t registered_mask(mdl_disk *disk);

#endif
