/* Not proved. Stands for the library: each command gets the reply that a test has chosen, and what was asked
 * is kept. So a test can have each status, length and error. */
#ifndef STUB_H
#define STUB_H

#include "mehdalung.h"

enum { STUB_DATA = 16384 };

struct stub {
    /* What the next commands and happenings get. */
    mdl_error error, flush_error, happening_error;
    mdl_reply reply;
    uint8_t data_in[STUB_DATA];
    uint64_t registered, registered_after; /* before a command with PREEMPT AND ABORT, and from then on */
    /* What was asked. */
    unsigned commands, flushes, happenings;
    uint32_t initiator;
    uint8_t cdb[32], data_out[STUB_DATA];
    size_t cdb_length, data_out_length, room;
    mdl_happening happening;
};

extern struct stub stub;

/* Forgets all of it: commands end with GOOD. */
void reset_stub(void);

/* Chooses CHECK CONDITION with fixed format sense data (SPC-4, 4.5.3). */
void reply_sense(uint8_t key, uint8_t asc, uint8_t ascq);

#endif
