/* Not proved. See command.h. */
#include "command.h"

#include <endian.h>
#include <string.h>

#include "absent.h"
#include "address.h"

/* Sense keys (SPC-4, 4.5.6). */
enum { RECOVERED_ERROR = 0x1, MISCOMPARE = 0xE };

/* More than the longest transfer that qemu's configuration space allows, 65,535 blocks. */
enum { LONGEST_DATA_OUT = 32 * 1024 * 1024 };

/* The lengths of the two headers, with a CDB of 32 bytes and sense data of 96. qemu lets no driver change
 * them. */
enum {
    REQUEST_LENGTH = sizeof(struct virtio_scsi_cmd_req),
    RESPONSE_LENGTH = sizeof(struct virtio_scsi_cmd_resp)
};

_Static_assert(REQUEST_LENGTH == 51 && RESPONSE_LENGTH == 108, "virtio 1.2, 5.6.6.1");
_Static_assert(MDL_SENSE_LENGTH <= VIRTIO_SCSI_SENSE_SIZE, "sense data has room");

int is_command(const struct chain *chain)
{
    return chain->out_length >= REQUEST_LENGTH && chain->in_length >= RESPONSE_LENGTH;
}

static uint64_t data_out_length(const struct chain *chain)
{
    return chain->out_length - REQUEST_LENGTH;
}

static uint64_t data_in_length(const struct chain *chain)
{
    return chain->in_length - RESPONSE_LENGTH;
}

static void set_residual(struct answer *answer, uint64_t residual)
{
    answer->response.resid = htole32(residual < UINT32_MAX ? (uint32_t)residual : UINT32_MAX);
}

void end_without_status(const struct chain *chain, uint8_t response, struct answer *answer)
{
    memset(&answer->response, 0, sizeof answer->response);
    answer->response.response = response;
    answer->length = RESPONSE_LENGTH;
    set_residual(answer, data_out_length(chain) + data_in_length(chain));
}

/* Data-out was used if the command has ended in success (SPC-4, 4.5.6), or has compared it. */
static int has_used_data_out(const mdl_reply *reply)
{
    mdl_sense sense;

    if (reply->status != MDL_CHECK_CONDITION)
        return reply->status == MDL_GOOD;
    return !mdl_read_sense(reply->sense, reply->sense_length, &sense) &&
           (sense.key == RECOVERED_ERROR || sense.key == MISCOMPARE);
}

/* Makes the answer of a reply. Its data-in is in the chain already, as much as has room there. */
static void answer_reply(const struct chain *chain, const mdl_reply *reply, struct answer *answer)
{
    uint64_t out = data_out_length(chain), in = data_in_length(chain), moved = 0;

    memset(&answer->response, 0, sizeof answer->response);
    answer->response.status = reply->status;
    answer->response.sense_len = htole32(reply->sense_length);
    memcpy(answer->response.sense, reply->sense, reply->sense_length);
    if (reply->data_out_length > out || reply->data_in_length > in)
        answer->response.response = VIRTIO_SCSI_S_OVERRUN;
    if (out > 0 && has_used_data_out(reply))
        moved = reply->data_out_length < out ? reply->data_out_length : out;
    else if (out == 0)
        moved = reply->data_in_length < in ? reply->data_in_length : in;
    answer->length = RESPONSE_LENGTH + (out == 0 ? (uint32_t)moved : 0);
    set_residual(answer, out + in - moved);
}

/* The reply of the target to a logical unit that it does not have. */
static enum fate execute_elsewhere(const struct chain *chain, const uint8_t *cdb, struct answer *answer)
{
    uint8_t data_in[MOST_ABSENT_DATA_IN];
    uint64_t room = data_in_length(chain);
    mdl_reply reply;

    execute_absent(cdb, data_in, &reply);
    if (room > reply.data_in_length)
        room = reply.data_in_length;
    copy_in(chain, RESPONSE_LENGTH, data_in, room);
    answer_reply(chain, &reply, answer);
    return FATE_ANSWERED;
}

/* The library tells that the guest's buffer for data-in is too short before it executes anything. */
static enum fate execute_on_disk(mdl_disk *disk, uint32_t initiator, const struct chain *chain,
                                 const uint8_t *cdb, struct answer *answer)
{
    static uint8_t data_out[LONGEST_DATA_OUT], data_in[MDL_BUFFER_LENGTH];
    size_t out = data_out_length(chain), room = sizeof data_in;
    mdl_reply reply;
    mdl_error error;
    uint8_t response;

    if (room > data_in_length(chain))
        room = data_in_length(chain);
    copy_out(chain, REQUEST_LENGTH, data_out, out);
    error = mdl_execute_unflushed(disk, initiator, cdb, VIRTIO_SCSI_CDB_SIZE, data_out, out, data_in, room,
                                  &reply);
    if (error && error != MDL_FLUSH_OWED) {
        response = error == MDL_BUFFER_TOO_SHORT ? VIRTIO_SCSI_S_OVERRUN : VIRTIO_SCSI_S_FAILURE;
        end_without_status(chain, response, answer);
        return FATE_ANSWERED;
    }
    if (reply.status == MDL_NO_REPLY)
        return FATE_HELD;
    copy_in(chain, RESPONSE_LENGTH, data_in, reply.data_in_length);
    answer_reply(chain, &reply, answer);
    return error ? FATE_WAITS : FATE_ANSWERED;
}

enum fate execute_command(mdl_disk *disk, uint32_t initiator, const struct chain *chain,
                          struct answer *answer)
{
    uint64_t out = data_out_length(chain), in = data_in_length(chain);
    struct virtio_scsi_cmd_req request;

    copy_out(chain, 0, &request, sizeof request);
    answer->tag = le64toh(request.tag);
    switch (read_address(request.lun)) {
    case ADDRESS_DISK: case ADDRESS_OTHER_UNIT: break;
    case ADDRESS_NO_TARGET:
        end_without_status(chain, VIRTIO_SCSI_S_BAD_TARGET, answer);
        return FATE_ANSWERED;
    }
    if ((out > 0 && in > 0) || out > LONGEST_DATA_OUT) {
        end_without_status(chain, VIRTIO_SCSI_S_FAILURE, answer);
        return FATE_ANSWERED;
    }
    if (read_address(request.lun) == ADDRESS_OTHER_UNIT)
        return execute_elsewhere(chain, request.cdb, answer);
    return execute_on_disk(disk, initiator, chain, request.cdb, answer);
}

void fail_for_file(mdl_disk *disk, const struct chain *chain, struct answer *answer)
{
    static const uint8_t test_unit_ready[6];
    mdl_reply reply;

    mdl_execute(disk, 0, test_unit_ready, sizeof test_unit_ready, NULL, 0, NULL, 0, &reply);
    answer_reply(chain, &reply, answer);
}
