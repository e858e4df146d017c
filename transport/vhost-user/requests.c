/* Not proved. See requests.h. */
#include "requests.h"

#include <endian.h>
#include <stddef.h>
#include <stdio.h>
#include <string.h>

#include "address.h"
#include "control.h"
#include "events.h"
#include "held.h"
#include "preempting.h"
#include "trace.h"

/* No queue keeps the others waiting for longer than this many requests take. */
enum { MOST_IN_A_ROUND = 64 };

void report(struct port *port, const struct queue *queue, enum guest_fault fault)
{
    static const char *const texts[GUEST_FAULTS] = {
        [CHAIN_LEAVES_TABLE] = "the index of a descriptor is outside its table",
        [CHAIN_IS_TOO_LONG] = "a chain has more descriptors than its table",
        [CHAIN_LEAVES_MEMORY] = "an address is outside the guest's memory",
        [CHAIN_IS_UNORDERED] = "a device-readable descriptor comes after a device-writable one",
        [CHAIN_HAS_BAD_TABLE] = "an indirect table is nested, not the last, or not whole",
        [GUEST_HEADER_IS_SHORT] = "a request has no whole header, or no room for its response",
        [GUEST_TYPE_IS_UNKNOWN] = "a request of the control queue has an unknown type",
        [GUEST_RING_IS_BROKEN] = "an index of the available ring is impossible, so the queue stops",
    };

    if (port->reported >> fault & 1)
        return;
    port->reported |= 1u << fault;
    fprintf(stderr, "serve: %s: queue %u: %s\n", port->path, queue->number, texts[fault]);
}

/* Answers a request that is none, as far as there is room for a response. */
static void refuse(struct queue *queue, uint16_t head, const struct chain *chain)
{
    struct virtio_scsi_cmd_resp response = { .response = VIRTIO_SCSI_S_FAILURE };
    uint32_t length = sizeof response;

    if (chain->in_length < length)
        length = (uint32_t)chain->in_length;
    if (length < offsetof(struct virtio_scsi_cmd_resp, sense))
        length = 0;
    copy_in(chain, 0, &response, length);
    put_used(queue, head, length);
}

static void let_out(struct queue *queue, uint16_t head, const struct chain *chain,
                    const struct answer *answer)
{
    copy_in(chain, 0, &answer->response, sizeof answer->response);
    put_used(queue, head, answer->length);
}

void end_waiting(struct unit *unit)
{
    static struct chain chain;
    struct waiting *it = unit->waiting, *end = it + unit->waiting_count;
    mdl_error error;

    if (it == end)
        return;
    error = mdl_flush(&unit->disk);
    if (error)
        fprintf(stderr, "serve: the disk's file can't be written: %u commands fail\n", unit->waiting_count);
    unit->waiting_count = 0;
    for (; it < end; it++) {
        if (read_chain(it->port->memory, &it->queue->ring, it->head, &chain) || !is_command(&chain)) {
            put_used(it->queue, it->head, 0);
            continue;
        }
        if (error)
            fail_for_file(&unit->disk, &chain, &it->answer);
        let_out(it->queue, it->head, &chain, &it->answer);
    }
}

/* The length of a CDB, by the group of its operation code (SPC-4, 4.2.5.1). Groups that
 * have no length there have 10 bytes here. */
static size_t length_of_cdb(const uint8_t *cdb)
{
    static const uint8_t lengths[] = { 6, 10, 10, TRACED_CDB, 16, 12, 10, 10 };

    return lengths[cdb[0] >> 5];
}

/* Adds a line for a command to the trace. A response of virtio other than OK comes before the reply. */
static void trace(FILE *file, const struct port *port, const struct virtio_scsi_cmd_req *request,
                  size_t data_out_length, enum fate fate, const struct answer *answer)
{
    const struct virtio_scsi_cmd_resp *response = &answer->response;
    const struct traced traced = { (int)port->initiator, request->cdb, length_of_cdb(request->cdb),
                                   data_out_length };
    mdl_reply reply = { .status = MDL_NO_REPLY };
    char line[TRACE_LENGTH + 1];

    if (read_address(request->lun) != ADDRESS_DISK)
        return;
    if (fate != FATE_HELD) {
        reply.status = response->status;
        reply.sense_length = (uint8_t)le32toh(response->sense_len);
        memcpy(reply.sense, response->sense, reply.sense_length);
        reply.data_in_length = answer->length - sizeof *response;
    }
    write_trace(line, &traced, &reply);
    if (fate != FATE_HELD && response->response != VIRTIO_SCSI_S_OK)
        fprintf(file, "response %u, ", response->response);
    fprintf(file, "%s\n", line);
}

static void wait_for_flush(struct unit *unit, struct port *port, struct queue *queue, uint16_t head,
                           const struct answer *answer)
{
    unit->waiting[unit->waiting_count++] = (struct waiting){ port, queue, head, *answer };
    if (unit->waiting_count == MOST_WAITING)
        end_waiting(unit);
}

/* Executes a command. PREEMPT AND ABORT ends the held commands of initiators that lose their registrations
 * (SPC-4, 5.13), after the answers that wait. */
static enum fate execute(struct unit *unit, const struct port *port, const struct chain *chain,
                         struct answer *answer)
{
    struct virtio_scsi_cmd_req request;
    uint64_t before = 0;
    enum fate fate;
    int preempts;

    copy_out(chain, 0, &request, sizeof request);
    preempts = is_preempt_and_abort(request.cdb, sizeof request.cdb);
    if (preempts) {
        end_waiting(unit);
        before = registered_mask(&unit->disk);
    }
    fate = execute_command(&unit->disk, port->initiator, chain, answer);
    if (unit->trace)
        trace(unit->trace, port, &request, chain->out_length - sizeof request, fate, answer);
    if (preempts)
        end_held_of(unit, before & ~registered_mask(&unit->disk), VIRTIO_SCSI_S_ABORTED);
    return fate;
}

static void serve_request(struct unit *unit, struct port *port, struct queue *queue, uint16_t head)
{
    static struct chain chain;
    enum chain_fault fault = read_chain(port->memory, &queue->ring, head, &chain);
    struct answer answer;

    if (fault || !is_command(&chain)) {
        report(port, queue, fault ? (enum guest_fault)fault : GUEST_HEADER_IS_SHORT);
        refuse(queue, head, &chain);
        return;
    }
    switch (execute(unit, port, &chain, &answer)) {
    case FATE_ANSWERED: let_out(queue, head, &chain, &answer); break;
    case FATE_WAITS: wait_for_flush(unit, port, queue, head, &answer); break;
    case FATE_HELD:
        if (!hold(unit, port, queue, head, answer.tag)) {
            end_without_status(&chain, VIRTIO_SCSI_S_BUSY, &answer);
            let_out(queue, head, &chain, &answer);
        }
        break;
    }
}

int may_use(const struct port *port, const struct queue *queue)
{
    return !port->is_paused && queue->is_running && !queue->is_broken;
}

int take_from(struct port *port, struct queue *queue, uint16_t *head)
{
    enum taken taken = take_head(queue, head);

    if (taken == TAKEN_BROKEN) {
        queue->is_broken = 1;
        report(port, queue, GUEST_RING_IS_BROKEN);
    }
    return taken == TAKEN_ONE;
}

/* Serves at most `most` requests of a queue. Returns 1 if it may have more. */
static int serve_queue(struct unit *unit, struct port *port, struct queue *queue, unsigned most)
{
    uint16_t head;

    for (; most > 0; most--) {
        if (!take_from(port, queue, &head))
            return 0;
        if (queue->number == CONTROL_QUEUE)
            serve_control(unit, port, queue, head);
        else
            serve_request(unit, port, queue, head);
    }
    return 1;
}

void serve_all_requests(struct unit *unit)
{
    unsigned at, number;
    struct port *port;

    for (at = 0; at < unit->port_count; at++) {
        port = &unit->ports[at];
        for (number = EVENT_QUEUE + 1; number < port->queue_count; number++)
            if (may_use(port, &port->queues[number]))
                serve_queue(unit, port, &port->queues[number], port->queues[number].ring.size);
    }
    end_waiting(unit);
}

/* The event queue has the guest's buffers, and no requests. */
static int serve_port(struct unit *unit, struct port *port)
{
    struct queue *queue = port->queues, *end = queue + port->queue_count;
    int is_more = 0;

    deliver_event(port);
    for (; queue < end; queue++) {
        if (!queue->is_pending || !may_use(port, queue) || queue->number == EVENT_QUEUE)
            continue;
        queue->is_pending = serve_queue(unit, port, queue, MOST_IN_A_ROUND);
        is_more |= queue->is_pending;
    }
    return is_more;
}

int serve_round(struct unit *unit)
{
    unsigned at;
    int is_more = 0;

    for (at = 0; at < unit->port_count; at++)
        is_more |= serve_port(unit, &unit->ports[at]);
    end_waiting(unit);
    return is_more;
}
