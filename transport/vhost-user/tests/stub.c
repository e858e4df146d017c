/* Not proved. See stub.h. */
#include "stub.h"

#include <stdlib.h>
#include <string.h>

struct stub stub;

void reset_stub(void)
{
    memset(&stub, 0, sizeof stub);
}

void reply_sense(uint8_t key, uint8_t asc, uint8_t ascq)
{
    const uint8_t sense[18] = { 0x70, [2] = key, [7] = 10, [12] = asc, [13] = ascq };

    stub.reply.status = MDL_CHECK_CONDITION;
    stub.reply.sense_length = sizeof sense;
    memcpy(stub.reply.sense, sense, sizeof sense);
}

mdl_error mdl_execute_unflushed(mdl_disk *disk, uint32_t initiator, const uint8_t *cdb, size_t cdb_length,
                                const uint8_t *data_out, size_t data_out_length, uint8_t *data_in,
                                size_t data_in_length, mdl_reply *reply)
{
    size_t kept = data_out_length < STUB_DATA ? data_out_length : STUB_DATA;

    (void)disk;
    stub.commands++;
    stub.initiator = initiator;
    stub.cdb_length = cdb_length;
    if (cdb_length <= sizeof stub.cdb)
        memcpy(stub.cdb, cdb, cdb_length);
    stub.data_out_length = data_out_length;
    memcpy(stub.data_out, data_out, kept);
    stub.room = data_in_length;
    if (stub.reply.data_in_length > data_in_length)
        return MDL_BUFFER_TOO_SHORT;
    if (stub.error && stub.error != MDL_FLUSH_OWED)
        return stub.error;
    *reply = stub.reply;
    memcpy(data_in, stub.data_in, reply->data_in_length);
    stub.registered = stub.registered_after;
    return stub.error;
}

/* Only a disk whose file has failed is asked by this one. */
mdl_error mdl_execute(mdl_disk *disk, uint32_t initiator, const uint8_t *cdb, size_t cdb_length,
                      const uint8_t *data_out, size_t data_out_length, uint8_t *data_in,
                      size_t data_in_length, mdl_reply *reply)
{
    (void)disk, (void)initiator, (void)cdb, (void)cdb_length, (void)data_out, (void)data_in;
    if (data_out_length || data_in_length)
        abort();
    reply_sense(0x04, 0x44, 0x00);
    *reply = stub.reply;
    return MDL_OK;
}

mdl_error mdl_flush(mdl_disk *disk)
{
    (void)disk;
    stub.flushes++;
    return stub.flush_error;
}

mdl_error mdl_happen(mdl_disk *disk, const mdl_happening *happening)
{
    (void)disk;
    stub.happenings++;
    stub.happening = *happening;
    return stub.happening_error;
}

mdl_error mdl_registered(mdl_disk *disk, uint64_t *mask)
{
    (void)disk;
    *mask = stub.registered;
    return MDL_OK;
}

mdl_error mdl_read_sense(const uint8_t *sense, size_t length, mdl_sense *fields)
{
    if (length < 3)
        return MDL_UNREADABLE;
    memset(fields, 0, sizeof *fields);
    fields->key = sense[2] & 0x0F;
    return MDL_OK;
}
