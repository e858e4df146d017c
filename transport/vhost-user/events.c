/* Not proved. See events.h. */
#include "events.h"

#include <endian.h>

#include "held.h"
#include "requests.h"

/* CAPACITY DATA HAS CHANGED. An event has ASC in the low byte of its reason, and ASCQ in the next one. */
enum { CAPACITY_HAS_CHANGED = 0x092A };

static void note_growth(struct unit *unit)
{
    unsigned at;

    for (at = 0; at < unit->port_count; at++)
        unit->ports[at].owes_event = unit->ports[at].takes_events;
}

void note_happening(struct unit *unit, const mdl_happening *happening)
{
    switch (happening->kind) {
    case MDL_POWER_CYCLE: case MDL_LOGICAL_UNIT_RESET: case MDL_TARGET_RESET:
        end_held(unit, ANY_PORT, ANY_TAG, VIRTIO_SCSI_S_RESET);
        break;
    case MDL_NEXUS_LOSS:
        end_held_of(unit, UINT64_C(1) << happening->initiator, VIRTIO_SCSI_S_RESET);
        break;
    case MDL_GROW: note_growth(unit); break;
    default: break;
    }
}

/* Writes the event into a buffer of the guest. Returns 0 if it does not fit in there. Linux knows LUN 0 only
 * in the form of peripheral device addressing here (virtscsi_handle_param_change). */
static int write_event(struct port *port, struct queue *queue, uint16_t head)
{
    static struct chain chain;
    struct virtio_scsi_event event = { .event = htole32(VIRTIO_SCSI_T_PARAM_CHANGE), .lun = { 1 },
                                       .reason = htole32(CAPACITY_HAS_CHANGED) };
    enum chain_fault fault = read_chain(port->memory, &queue->ring, head, &chain);

    if (fault || chain.in_length < sizeof event) {
        report(port, queue, fault ? (enum guest_fault)fault : GUEST_HEADER_IS_SHORT);
        put_used(queue, head, 0);
        return 0;
    }
    copy_in(&chain, 0, &event, sizeof event);
    put_used(queue, head, sizeof event);
    return 1;
}

void deliver_event(struct port *port)
{
    struct queue *queue = &port->queues[EVENT_QUEUE];
    unsigned most;
    uint16_t head;

    if (!may_use(port, queue))
        return;
    /* A guest that goes on giving buffers that are too short keeps nobody waiting. */
    for (most = queue->ring.size; most > 0 && port->owes_event && take_from(port, queue, &head); most--)
        port->owes_event = !write_event(port, queue, head);
}
