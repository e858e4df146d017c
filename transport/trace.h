/* Not proved. The line that a trace has for a command and its reply. */
#ifndef TRACE_H
#define TRACE_H

#include "mehdalung.h"

/* TRACED_CDB is the length of the longest CDB of a command of the disk. A line has at most TRACE_LENGTH
 * characters, with a zero after it. */
enum { NO_INITIATOR = -1, TRACED_CDB = 16, TRACE_LENGTH = 191 };

/* A command as a trace shows it. */
struct traced {
    int initiator; /* or NO_INITIATOR: the port has no number */
    const uint8_t *cdb;
    size_t cdb_length; /* at most TRACED_CDB bytes are shown */
    size_t data_out_length;
};

/* Writes the line, without its end. The CDB is written as in a script of sgrun. */
void write_trace(char *line, const struct traced *command, const mdl_reply *reply);

#endif
