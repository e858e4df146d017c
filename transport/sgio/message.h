/* Not proved: what is in this folder carries CDBs to the proved disk and its replies back.
 *
 * The messages between the server, which holds the disk, and its clients, over a Unix socket of
 * type SOCK_STREAM. A client sends a request and then reads its reply, before it sends the next
 * one. Numbers are big-endian.
 *
 * A request has these bytes:
 *     - 0: KIND, 1 for a command, 2 for a power cycle, 3 for a happening and 4 for a question. If it is 2,
 *       all other bytes are 0, except TAG. If it is 3, the bytes 1 and 3 are 0, and DATA-OUT LENGTH is 65.
 *       If it is 4, all other bytes are 0, except INITIATOR and TAG.
 *     - 1: INITIATOR. A base disk has initiators 0 to 7, and an extended disk 0 to 63.
 *     - 2: TAG, any byte. The reply has it, too.
 *     - 3: CDB LENGTH, 0 to 255.
 *     - 4 to 7: DATA-OUT LENGTH, 0 to 2,097,152.
 *     - 8 on: the CDB, CDB LENGTH bytes.
 *     - After it: data-out, DATA-OUT LENGTH bytes.
 *
 * The data-out of a happening has the fields of an mdl_happening:
 *     - 0 to 3: kind.
 *     - 4 to 7: initiator.
 *     - 8 to 15: initiators.
 *     - 16 to 23: blocks.
 *     - 24: asc.
 *     - 25: ascq.
 *     - 26: number.
 *     - 27 to 64: the fields of its mdl_fault:
 *           - 27 to 34: initiators.
 *           - 35 to 42: lba.
 *           - 43 to 46: count.
 *           - 47 to 50: outcome.
 *           - 51 to 54: blocks.
 *           - 55 and 56: skip.
 *           - 57 and 58: times.
 *           - 59: has_code.
 *           - 60: code.
 *           - 61: healed_by_writes.
 *           - 62: key.
 *           - 63: asc.
 *           - 64: ascq.
 *
 * The question is whether the disk has INITIATOR. If it does not, RESULT is MDL_NO_INITIATOR, as it is for a
 * command. Otherwise RESULT is 0, and all other bytes of the reply are 0, except TAG.
 *
 * A reply has these bytes:
 *     - 0: RESULT, an mdl_error, or 255. It is 0 if the request was executed.
 *     - 1: STATUS, the SCSI status.
 *     - 2: TAG, the request's.
 *     - 3: SENSE LENGTH, 0 to 20.
 *     - 4 to 7: DATA-IN LENGTH, 0 to 1,048,576.
 *     - 8 to 27: sense data, SENSE LENGTH bytes, and zeros after them.
 *     - 28 to 31: DATA-OUT LENGTH, how many bytes of data-out the CDB asks for, or 4,294,967,295 if
 *       there are more.
 *     - 32 on: data-in, DATA-IN LENGTH bytes.
 *
 * If RESULT is not 0, nothing was executed, and all other bytes except TAG are 0. RESULT 255 says
 * that the request is none of these, and its TAG is 0. The server then closes the connection, because
 * it can't know where the next request begins. A request is executed when its last byte has arrived.
 * If the client closes before that, it is not executed.
 *
 * If the disk never replies to a command (MDL_NO_REPLY), the server sends nothing for it, and goes on
 * with the client's next request. So a client has to wait for a reply for a limited time. It knows
 * a late reply to an earlier command by its TAG.
 */
#ifndef MESSAGE_H
#define MESSAGE_H

#include <stddef.h>
#include <stdint.h>

#include "mehdalung.h"

enum {
    REQUEST_HEADER_LENGTH = 8,
    REPLY_HEADER_LENGTH = 32,
    HAPPENING_LENGTH = 65,
    MOST_CDB = 255,
    /* Twice what a WRITE may carry, so that the disk itself refuses one that is too long. */
    MOST_DATA_OUT = 2 * MDL_BUFFER_LENGTH,
    MOST_REQUEST = REQUEST_HEADER_LENGTH + MOST_CDB + MOST_DATA_OUT,
    MOST_REPLY = REPLY_HEADER_LENGTH + MDL_BUFFER_LENGTH
};

/* Where TAG is in both headers. */
enum { TAG_AT = 2 };

enum request_kind { COMMAND = 1, POWER_CYCLE = 2, HAPPENING = 3, QUESTION = 4 };

enum { RESULT_MALFORMED = 255 };

struct request_header {
    uint8_t kind, initiator, tag, cdb_length;
    uint32_t data_out_length;
};

struct reply_header {
    uint8_t result, status, tag, sense_length, sense[MDL_SENSE_LENGTH];
    uint32_t data_in_length, data_out_length;
};

/* Writes REQUEST_HEADER_LENGTH bytes. */
void put_request_header(uint8_t *bytes, const struct request_header *header);

/* Reads REQUEST_HEADER_LENGTH bytes. Returns the length of the whole request, or 0 where the header
 * is no request's. */
size_t get_request_header(const uint8_t *bytes, struct request_header *header);

/* Writes HAPPENING_LENGTH bytes. */
void put_happening(uint8_t *bytes, const mdl_happening *happening);

/* Reads HAPPENING_LENGTH bytes. Any bytes are a record, which mdl_happen may refuse. */
void get_happening(const uint8_t *bytes, mdl_happening *happening);

/* Writes REPLY_HEADER_LENGTH bytes. */
void put_reply_header(uint8_t *bytes, const struct reply_header *header);

/* Reads REPLY_HEADER_LENGTH bytes. Returns the length of the whole reply, or 0 where the header is
 * no reply's. */
size_t get_reply_header(const uint8_t *bytes, struct reply_header *header);

#endif
