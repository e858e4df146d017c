/* Not proved. See control.h. */
#include "control.h"

#include <endian.h>

#include "address.h"
#include "events.h"
#include "held.h"
#include "requests.h"

/* virtio's response FUNCTION COMPLETE, for which the header of Linux has no name. */
enum { FUNCTION_COMPLETE = 0 };

/* Lets a reset or a lost nexus happen to the disk. Held commands end even if the disk's file fails. */
static uint8_t happen(struct unit *unit, uint32_t kind, uint32_t initiator)
{
    mdl_happening happening = { .kind = kind, .initiator = initiator };
    mdl_error error = mdl_happen(&unit->disk, &happening);

    note_happening(unit, &happening);
    return error ? VIRTIO_SCSI_S_TARGET_FAILURE : FUNCTION_COMPLETE;
}

/* A task management function of SAM-5, section 7. Only held commands have not ended before it. The disk has
 * NORMACA 0, so there is no CLEAR ACA. Queries are not supported. */
static uint8_t perform(struct unit *unit, const struct port *port,
                       const struct virtio_scsi_ctrl_tmf_req *request)
{
    enum address address = read_address(request->lun);
    uint32_t function = le32toh(request->subtype);
    uint64_t tag = le64toh(request->tag);

    /* This one addresses the target, whatever the logical unit is. */
    if (function == VIRTIO_SCSI_T_TMF_I_T_NEXUS_RESET && address == ADDRESS_OTHER_UNIT)
        address = ADDRESS_DISK;
    if (address != ADDRESS_DISK)
        return address == ADDRESS_NO_TARGET ? VIRTIO_SCSI_S_BAD_TARGET : VIRTIO_SCSI_S_INCORRECT_LUN;
    switch (function) {
    case VIRTIO_SCSI_T_TMF_ABORT_TASK:
        end_held(unit, port, &tag, VIRTIO_SCSI_S_ABORTED);
        return FUNCTION_COMPLETE;
    case VIRTIO_SCSI_T_TMF_ABORT_TASK_SET:
        end_held(unit, port, ANY_TAG, VIRTIO_SCSI_S_ABORTED);
        return FUNCTION_COMPLETE;
    case VIRTIO_SCSI_T_TMF_CLEAR_TASK_SET:
        end_held(unit, ANY_PORT, ANY_TAG, VIRTIO_SCSI_S_ABORTED);
        return FUNCTION_COMPLETE;
    case VIRTIO_SCSI_T_TMF_I_T_NEXUS_RESET: return happen(unit, MDL_NEXUS_LOSS, port->initiator);
    case VIRTIO_SCSI_T_TMF_LOGICAL_UNIT_RESET: return happen(unit, MDL_LOGICAL_UNIT_RESET, 0);
    default: return VIRTIO_SCSI_S_FUNCTION_REJECTED;
    }
}

/* Each request ends before the response of a function that may end it. */
static uint32_t manage_tasks(struct unit *unit, const struct port *port, const struct chain *chain)
{
    struct virtio_scsi_ctrl_tmf_resp response;
    struct virtio_scsi_ctrl_tmf_req request;

    copy_out(chain, 0, &request, sizeof request);
    serve_all_requests(unit);
    response.response = perform(unit, port, &request);
    copy_in(chain, 0, &response, sizeof response);
    return sizeof response;
}

/* The disk reports no events. */
static uint32_t subscribe(const struct chain *chain)
{
    struct virtio_scsi_ctrl_an_resp response = { .event_actual = 0, .response = VIRTIO_SCSI_S_OK };
    struct virtio_scsi_ctrl_an_req request;

    copy_out(chain, 0, &request, sizeof request);
    switch (read_address(request.lun)) {
    case ADDRESS_DISK: break;
    case ADDRESS_OTHER_UNIT: response.response = VIRTIO_SCSI_S_INCORRECT_LUN; break;
    case ADDRESS_NO_TARGET: response.response = VIRTIO_SCSI_S_BAD_TARGET; break;
    }
    copy_in(chain, 0, &response, sizeof response);
    return sizeof response;
}

static int has(const struct chain *chain, size_t out, size_t in)
{
    return chain->out_length >= out && chain->in_length >= in;
}

/* Answers a request of no known form. A response is its last byte. */
static uint32_t refuse(struct port *port, const struct queue *queue, const struct chain *chain,
                       enum guest_fault fault)
{
    static const uint8_t nothing[sizeof(struct virtio_scsi_ctrl_an_resp)];
    const uint8_t failure = VIRTIO_SCSI_S_FAILURE;

    report(port, queue, fault);
    if (chain->in_length == 0 || chain->in_length > sizeof nothing)
        return 0;
    copy_in(chain, 0, nothing, chain->in_length);
    copy_in(chain, chain->in_length - 1, &failure, sizeof failure);
    return (uint32_t)chain->in_length;
}

static uint32_t answer(struct unit *unit, struct port *port, const struct queue *queue,
                       const struct chain *chain)
{
    uint32_t type;

    if (!has(chain, sizeof type, 0))
        return refuse(port, queue, chain, GUEST_HEADER_IS_SHORT);
    copy_out(chain, 0, &type, sizeof type);
    switch (le32toh(type)) {
    case VIRTIO_SCSI_T_TMF:
        if (has(chain, sizeof(struct virtio_scsi_ctrl_tmf_req), sizeof(struct virtio_scsi_ctrl_tmf_resp)))
            return manage_tasks(unit, port, chain);
        return refuse(port, queue, chain, GUEST_HEADER_IS_SHORT);
    case VIRTIO_SCSI_T_AN_QUERY: case VIRTIO_SCSI_T_AN_SUBSCRIBE:
        if (has(chain, sizeof(struct virtio_scsi_ctrl_an_req), sizeof(struct virtio_scsi_ctrl_an_resp)))
            return subscribe(chain);
        return refuse(port, queue, chain, GUEST_HEADER_IS_SHORT);
    default: return refuse(port, queue, chain, GUEST_TYPE_IS_UNKNOWN);
    }
}

void serve_control(struct unit *unit, struct port *port, struct queue *queue, uint16_t head)
{
    static struct chain chain;
    enum chain_fault fault = read_chain(port->memory, &queue->ring, head, &chain);

    if (fault)
        put_used(queue, head, refuse(port, queue, &chain, (enum guest_fault)fault));
    else
        put_used(queue, head, answer(unit, port, queue, &chain));
}
