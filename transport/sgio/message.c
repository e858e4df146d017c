/* Not proved. The headers and the happenings of message.h, as bytes. */
#include "message.h"

#include <string.h>

static void put_number(uint8_t *bytes, uint32_t number)
{
    bytes[0] = (uint8_t)(number >> 24);
    bytes[1] = (uint8_t)(number >> 16);
    bytes[2] = (uint8_t)(number >> 8);
    bytes[3] = (uint8_t)number;
}

static void put_short_number(uint8_t *bytes, uint16_t number)
{
    bytes[0] = (uint8_t)(number >> 8);
    bytes[1] = (uint8_t)number;
}

static uint16_t get_short_number(const uint8_t *bytes)
{
    return (uint16_t)(bytes[0] << 8 | bytes[1]);
}

static uint32_t get_number(const uint8_t *bytes)
{
    return (uint32_t)bytes[0] << 24 | (uint32_t)bytes[1] << 16 | (uint32_t)bytes[2] << 8 | bytes[3];
}

void put_request_header(uint8_t *bytes, const struct request_header *header)
{
    bytes[0] = header->kind;
    bytes[1] = header->initiator;
    bytes[2] = header->tag;
    bytes[3] = header->cdb_length;
    put_number(bytes + 4, header->data_out_length);
}

size_t get_request_header(const uint8_t *bytes, struct request_header *header)
{
    const uint32_t own_length = bytes[0] == HAPPENING ? HAPPENING_LENGTH : 0;

    header->kind = bytes[0];
    header->initiator = bytes[1];
    header->tag = bytes[2];
    header->cdb_length = bytes[3];
    header->data_out_length = get_number(bytes + 4);
    switch (header->kind) {
    case COMMAND:
        return header->data_out_length > MOST_DATA_OUT
                   ? 0 : (size_t)REQUEST_HEADER_LENGTH + header->cdb_length + header->data_out_length;
    case POWER_CYCLE: case HAPPENING:
        return header->initiator || header->cdb_length || header->data_out_length != own_length
                   ? 0 : REQUEST_HEADER_LENGTH + own_length;
    case QUESTION: return header->cdb_length || header->data_out_length ? 0 : REQUEST_HEADER_LENGTH;
    default: return 0;
    }
}

static void put_long_number(uint8_t *bytes, uint64_t number)
{
    put_number(bytes, (uint32_t)(number >> 32));
    put_number(bytes + 4, (uint32_t)number);
}

static uint64_t get_long_number(const uint8_t *bytes)
{
    return (uint64_t)get_number(bytes) << 32 | get_number(bytes + 4);
}

static void put_fault(uint8_t *bytes, const mdl_fault *fault)
{
    put_long_number(bytes, fault->initiators);
    put_long_number(bytes + 8, fault->lba);
    put_number(bytes + 16, fault->count);
    put_number(bytes + 20, fault->outcome);
    put_number(bytes + 24, fault->blocks);
    put_short_number(bytes + 28, fault->skip);
    put_short_number(bytes + 30, fault->times);
    bytes[32] = fault->has_code;
    bytes[33] = fault->code;
    bytes[34] = fault->healed_by_writes;
    bytes[35] = fault->key;
    bytes[36] = fault->asc;
    bytes[37] = fault->ascq;
}

static void get_fault(const uint8_t *bytes, mdl_fault *fault)
{
    fault->initiators = get_long_number(bytes);
    fault->lba = get_long_number(bytes + 8);
    fault->count = get_number(bytes + 16);
    fault->outcome = get_number(bytes + 20);
    fault->blocks = get_number(bytes + 24);
    fault->skip = get_short_number(bytes + 28);
    fault->times = get_short_number(bytes + 30);
    fault->has_code = bytes[32];
    fault->code = bytes[33];
    fault->healed_by_writes = bytes[34];
    fault->key = bytes[35];
    fault->asc = bytes[36];
    fault->ascq = bytes[37];
}

void put_happening(uint8_t *bytes, const mdl_happening *happening)
{
    put_number(bytes, happening->kind);
    put_number(bytes + 4, happening->initiator);
    put_long_number(bytes + 8, happening->initiators);
    put_long_number(bytes + 16, happening->blocks);
    bytes[24] = happening->asc;
    bytes[25] = happening->ascq;
    bytes[26] = happening->number;
    put_fault(bytes + 27, &happening->fault);
}

void get_happening(const uint8_t *bytes, mdl_happening *happening)
{
    memset(happening, 0, sizeof *happening);
    happening->kind = get_number(bytes);
    happening->initiator = get_number(bytes + 4);
    happening->initiators = get_long_number(bytes + 8);
    happening->blocks = get_long_number(bytes + 16);
    happening->asc = bytes[24];
    happening->ascq = bytes[25];
    happening->number = bytes[26];
    get_fault(bytes + 27, &happening->fault);
}

void put_reply_header(uint8_t *bytes, const struct reply_header *header)
{
    bytes[0] = header->result;
    bytes[1] = header->status;
    bytes[2] = header->tag;
    bytes[3] = header->sense_length;
    put_number(bytes + 4, header->data_in_length);
    memcpy(bytes + 8, header->sense, MDL_SENSE_LENGTH);
    put_number(bytes + 28, header->data_out_length);
}

size_t get_reply_header(const uint8_t *bytes, struct reply_header *header)
{
    header->result = bytes[0];
    header->status = bytes[1];
    header->tag = bytes[2];
    header->sense_length = bytes[3];
    header->data_in_length = get_number(bytes + 4);
    memcpy(header->sense, bytes + 8, MDL_SENSE_LENGTH);
    header->data_out_length = get_number(bytes + 28);
    if (header->sense_length > MDL_SENSE_LENGTH || header->data_in_length > MDL_BUFFER_LENGTH)
        return 0;
    return (size_t)REPLY_HEADER_LENGTH + header->data_in_length;
}
