/* Not proved. The control queue (virtio 1.2, 5.6.6.2), commands without a reply, and answers that wait for a
 * flush of the disk's file. */
#include <string.h>

#include "driver.h"
#include "events.h"
#include "held.h"
#include "requests.h"
#include "stub.h"

enum { HEADER = sizeof(struct virtio_scsi_cmd_req), ANSWER = sizeof(struct virtio_scsi_cmd_resp) };

/* Where a request of the control queue is, and what the device has to write. */
enum { CONTROL = REGION_2, CONTROL_RESPONSE = REGION_2 + 0x100 };

static const uint8_t lun_0[8] = { 1, 0, 0x40 }, lun_1[8] = { 1, 0, 0x40, 1 }, target_1[8] = { 1, 1, 0x40 };
static const uint8_t test_unit_ready[6], preempt_and_abort[10] = { 0x5F, 0x05, [8] = 24 };

/* The place of a command with a tag, so that several may be under way. */
static uint64_t place_of(uint64_t tag)
{
    return REGION_1 + 0x200 * tag;
}

static const struct virtio_scsi_cmd_resp *response_to(unsigned port, uint64_t tag)
{
    return (struct virtio_scsi_cmd_resp *)at(port, place_of(tag) + 0x100);
}

/* Makes a command available, whose first descriptor is twice its tag. */
static void send(unsigned port, uint64_t tag, const uint8_t *cdb, unsigned length)
{
    const struct element elements[] = { { place_of(tag), HEADER, OUT },
                                        { place_of(tag) + 0x100, ANSWER, IN } };

    put_request(port, tag, cdb, length);
    memcpy(at(port, place_of(tag)), at(port, REQUEST), HEADER);
    memset(at(port, place_of(tag) + 0x100), 0xEE, ANSWER);
    offer_chain(port, REQUESTS, (uint16_t)(2 * tag), elements, 2);
}

/* Returns 1 if the command with a tag is the next that has ended. */
static int has_ended(unsigned port, uint64_t tag, uint8_t response)
{
    uint32_t first, length;

    return take_used(port, REQUESTS, &first, &length) && first == 2 * tag && length == ANSWER &&
           response_to(port, tag)->response == response;
}

static int nothing_has_ended(unsigned port)
{
    uint32_t first, length;

    return !take_used(port, REQUESTS, &first, &length);
}

/* Sends a request of the control queue, and returns its last byte of `room`. `length` bytes are written. */
static uint8_t control(unsigned port, const void *request, uint32_t bytes, uint32_t room, uint32_t length)
{
    const struct element elements[] = { { CONTROL, bytes, OUT }, { CONTROL_RESPONSE, room, IN } };
    uint32_t first, used;

    memcpy(at(port, CONTROL), request, bytes);
    memset(at(port, CONTROL_RESPONSE), 0xEE, room + 1);
    offer_chain(port, CONTROL_QUEUE, 0, elements, 2);
    serve_all();
    WANT(take_used(port, CONTROL_QUEUE, &first, &used) && first == 0 && used == length);
    WANT(at(port, CONTROL_RESPONSE)[length] == 0xEE);
    return at(port, CONTROL_RESPONSE)[room - 1];
}

static uint8_t manage(unsigned port, uint32_t subtype, const uint8_t *lun, uint64_t tag)
{
    struct virtio_scsi_ctrl_tmf_req request = { .type = VIRTIO_SCSI_T_TMF, .subtype = subtype, .tag = tag };

    memcpy(request.lun, lun, 8);
    return control(port, &request, sizeof request, 1, 1);
}

/* Without a command that is held there is nothing to abort, and each function is complete. */
static void functions_are_complete(void)
{
    static const struct { uint32_t subtype; uint8_t response; int kind; } functions[] = {
        { VIRTIO_SCSI_T_TMF_ABORT_TASK, 0, -1 }, { VIRTIO_SCSI_T_TMF_ABORT_TASK_SET, 0, -1 },
        { VIRTIO_SCSI_T_TMF_CLEAR_ACA, VIRTIO_SCSI_S_FUNCTION_REJECTED, -1 },
        { VIRTIO_SCSI_T_TMF_CLEAR_TASK_SET, 0, -1 }, { VIRTIO_SCSI_T_TMF_I_T_NEXUS_RESET, 0, MDL_NEXUS_LOSS },
        { VIRTIO_SCSI_T_TMF_LOGICAL_UNIT_RESET, 0, MDL_LOGICAL_UNIT_RESET },
        { VIRTIO_SCSI_T_TMF_QUERY_TASK, VIRTIO_SCSI_S_FUNCTION_REJECTED, -1 },
        { VIRTIO_SCSI_T_TMF_QUERY_TASK_SET, VIRTIO_SCSI_S_FUNCTION_REJECTED, -1 },
        { 8, VIRTIO_SCSI_S_FUNCTION_REJECTED, -1 }, { UINT32_MAX, VIRTIO_SCSI_S_FUNCTION_REJECTED, -1 },
    };
    unsigned it, happened = 0;

    for (it = 0; it < sizeof functions / sizeof functions[0]; it++) {
        WANT(manage(1, functions[it].subtype, lun_0, 5) == functions[it].response);
        happened += functions[it].kind >= 0;
        WANT(stub.happenings == happened);
        if (functions[it].kind >= 0)
            WANT(stub.happening.kind == (uint32_t)functions[it].kind);
        if (functions[it].kind == MDL_NEXUS_LOSS)
            WANT(stub.happening.initiator == 1);
    }
    WANT(unit.ports[1].reported == 0 && stub.commands == 0);
}

/* A function for another address does nothing. An I_T nexus is the target's, whatever the LUN is. */
static void functions_have_an_address(void)
{
    uint32_t subtype;

    for (subtype = 0; subtype <= VIRTIO_SCSI_T_TMF_QUERY_TASK_SET; subtype++) {
        WANT(manage(0, subtype, target_1, 5) == VIRTIO_SCSI_S_BAD_TARGET);
        if (subtype != VIRTIO_SCSI_T_TMF_I_T_NEXUS_RESET)
            WANT(manage(0, subtype, lun_1, 5) == VIRTIO_SCSI_S_INCORRECT_LUN);
    }
    WANT(stub.happenings == 0);
    WANT(manage(0, VIRTIO_SCSI_T_TMF_I_T_NEXUS_RESET, lun_1, 5) == 0 && stub.happenings == 1);
    stub.happening_error = MDL_FILE_FAILED;
    WANT(manage(0, VIRTIO_SCSI_T_TMF_LOGICAL_UNIT_RESET, lun_0, 5) == VIRTIO_SCSI_S_TARGET_FAILURE);
}

/* Holds three commands: with the tags 1 and 2 of port 0, and 1 of port 1. */
static void hold_three(void)
{
    stub.reply.status = MDL_NO_REPLY;
    send(0, 1, test_unit_ready, 6);
    send(0, 2, test_unit_ready, 6);
    send(1, 1, test_unit_ready, 6);
    serve_all();
    WANT(nothing_has_ended(0) && nothing_has_ended(1));
}

/* Each function ends the commands that it is for, before its own response (virtio 1.2, 5.6.6.2). */
static void held_commands_end(void)
{
    static const struct { uint32_t subtype; int ends_2, ends_others; uint8_t response; } functions[] = {
        { VIRTIO_SCSI_T_TMF_ABORT_TASK, 0, 0, VIRTIO_SCSI_S_ABORTED },
        { VIRTIO_SCSI_T_TMF_ABORT_TASK_SET, 1, 0, VIRTIO_SCSI_S_ABORTED },
        { VIRTIO_SCSI_T_TMF_CLEAR_TASK_SET, 1, 1, VIRTIO_SCSI_S_ABORTED },
        { VIRTIO_SCSI_T_TMF_I_T_NEXUS_RESET, 1, 0, VIRTIO_SCSI_S_RESET },
        { VIRTIO_SCSI_T_TMF_LOGICAL_UNIT_RESET, 1, 1, VIRTIO_SCSI_S_RESET },
    };
    unsigned it;

    for (it = 0; it < sizeof functions / sizeof functions[0]; it++) {
        hold_three();
        WANT(manage(0, VIRTIO_SCSI_T_TMF_ABORT_TASK, lun_0, 3) == 0 && nothing_has_ended(0));
        WANT(manage(0, functions[it].subtype, lun_0, 1) == 0);
        if (functions[it].ends_2)
            WANT(has_ended(0, 2, functions[it].response));
        WANT(has_ended(0, 1, functions[it].response) && nothing_has_ended(0));
        if (functions[it].ends_others)
            WANT(has_ended(1, 1, functions[it].response));
        WANT(nothing_has_ended(1));
        manage(0, VIRTIO_SCSI_T_TMF_LOGICAL_UNIT_RESET, lun_0, 0);
        WANT(functions[it].ends_2 || has_ended(0, 2, VIRTIO_SCSI_S_RESET));
        WANT(functions[it].ends_others || has_ended(1, 1, VIRTIO_SCSI_S_RESET));
        WANT(nothing_has_ended(0) && nothing_has_ended(1) && !unit.held);
    }
}

/* Lets something happen to the disk that no guest asks for. */
static void happens(uint32_t kind, uint32_t initiator)
{
    note_happening(&unit, &(mdl_happening){ .kind = kind, .initiator = initiator });
    serve_all();
}

/* PREEMPT AND ABORT ends commands of initiators that lose their registrations (SPC-4, 5.13). */
static void preempted_commands_end(void)
{
    hold_three();
    stub.reply.status = MDL_GOOD;
    stub.registered = 3;
    stub.registered_after = 1;
    send(0, 3, preempt_and_abort, sizeof preempt_and_abort);
    serve_all();
    WANT(has_ended(0, 3, VIRTIO_SCSI_S_OK) && nothing_has_ended(0));
    WANT(has_ended(1, 1, VIRTIO_SCSI_S_ABORTED) && nothing_has_ended(1));
    manage(0, VIRTIO_SCSI_T_TMF_ABORT_TASK_SET, lun_0, 0);
    WANT(has_ended(0, 2, VIRTIO_SCSI_S_ABORTED) && has_ended(0, 1, VIRTIO_SCSI_S_ABORTED));
}

/* The greatest numbers of an extended disk: each ends its own commands, and no other number does. */
static void greatest_initiators_are_told_apart(void)
{
    unit.ports[0].initiator = 62;
    unit.ports[1].initiator = 63;
    hold_three();
    happens(MDL_NEXUS_LOSS, 31);
    WANT(nothing_has_ended(0) && nothing_has_ended(1));
    happens(MDL_NEXUS_LOSS, 63);
    WANT(nothing_has_ended(0) && has_ended(1, 1, VIRTIO_SCSI_S_RESET));
    stub.reply.status = MDL_GOOD;
    stub.registered = UINT64_C(3) << 62 | 1;
    stub.registered_after = UINT64_C(1) << 63;
    send(1, 3, preempt_and_abort, sizeof preempt_and_abort);
    serve_all();
    WANT(stub.initiator == 63 && has_ended(1, 3, VIRTIO_SCSI_S_OK) && nothing_has_ended(1));
    WANT(has_ended(0, 2, VIRTIO_SCSI_S_ABORTED) && has_ended(0, 1, VIRTIO_SCSI_S_ABORTED));
}

/* A guest may change or break the chain meanwhile. A queue that does not run now gets its answers later. */
static void held_commands_wait_for_their_queue(void)
{
    struct queue *queue = &unit.ports[0].queues[REQUESTS];
    uint32_t first, length;

    hold_three();
    queue->is_running = 0;
    WANT(manage(1, VIRTIO_SCSI_T_TMF_LOGICAL_UNIT_RESET, lun_0, 0) == 0);
    WANT(nothing_has_ended(0) && has_ended(1, 1, VIRTIO_SCSI_S_RESET));
    queue->is_running = 1;
    queue->ring.desc[2].addr = HOLE;
    answer_ended(&unit, &unit.ports[0]);
    WANT(has_ended(0, 2, VIRTIO_SCSI_S_RESET));
    WANT(take_used(0, REQUESTS, &first, &length) && first == 2 && length == 0);
    hold_three();
    end_held_in(&unit, queue, VIRTIO_SCSI_S_FAILURE);
    WANT(has_ended(0, 2, VIRTIO_SCSI_S_FAILURE) && has_ended(0, 1, VIRTIO_SCSI_S_FAILURE));
    forget_held(&unit, &unit.ports[1], NULL);
    WANT(nothing_has_ended(1));
}

/* No guest can have more commands under way than its queue has descriptors. */
static void held_commands_are_few(void)
{
    unsigned it;

    stub.reply.status = MDL_NO_REPLY;
    for (it = 0; it < QUEUE_SIZE; it++) {
        send(0, 1, test_unit_ready, 6);
        serve_all();
        WANT(nothing_has_ended(0));
    }
    send(0, 1, test_unit_ready, 6);
    serve_all();
    WANT(has_ended(0, 1, VIRTIO_SCSI_S_BUSY) && nothing_has_ended(0));
    forget_held(&unit, &unit.ports[0], &unit.ports[0].queues[REQUESTS]);
}

/* Commands that are there with a function end before it, in any queue of any port. */
static void commands_end_before_functions(void)
{
    struct virtio_scsi_ctrl_tmf_req request = { .subtype = VIRTIO_SCSI_T_TMF_LOGICAL_UNIT_RESET };
    const struct element elements[] = { { CONTROL, sizeof request, OUT }, { CONTROL_RESPONSE, 1, IN } };
    uint32_t first, length;

    memcpy(request.lun, lun_0, 8);
    memcpy(at(0, CONTROL), &request, sizeof request);
    send(0, 1, test_unit_ready, 6);
    send(1, 1, test_unit_ready, 6);
    unit.ports[0].queues[REQUESTS].is_pending = unit.ports[1].queues[REQUESTS].is_pending = 0;
    stub.reply.status = MDL_NO_REPLY;
    offer_chain(0, CONTROL_QUEUE, 0, elements, 2);
    serve_all();
    WANT(stub.commands == 2 && stub.happenings == 1);
    WANT(has_ended(0, 1, VIRTIO_SCSI_S_RESET) && has_ended(1, 1, VIRTIO_SCSI_S_RESET));
    WANT(take_used(0, CONTROL_QUEUE, &first, &length));
}

/* Queries of and subscriptions to events: the disk reports none. */
static void no_event_is_reported(void)
{
    struct virtio_scsi_ctrl_an_req request = { .event_requested = 0x7E };
    uint32_t type;

    for (type = VIRTIO_SCSI_T_AN_QUERY; type <= VIRTIO_SCSI_T_AN_SUBSCRIBE; type++) {
        request.type = type;
        memcpy(request.lun, lun_0, 8);
        WANT(control(0, &request, sizeof request, 5, 5) == VIRTIO_SCSI_S_OK);
        WANT(memcmp(at(0, CONTROL_RESPONSE), "\0\0\0\0", 4) == 0);
        memcpy(request.lun, lun_1, 8);
        WANT(control(0, &request, sizeof request, 5, 5) == VIRTIO_SCSI_S_INCORRECT_LUN);
        memcpy(request.lun, target_1, 8);
        WANT(control(0, &request, sizeof request, 5, 5) == VIRTIO_SCSI_S_BAD_TARGET);
    }
}

/* Requests of no form get FAILURE in their last byte, if they have a response's length. */
static void unknown_requests_fail(void)
{
    struct virtio_scsi_ctrl_tmf_req request = { .type = 3 };

    WANT(control(0, &request, sizeof request, 1, 1) == VIRTIO_SCSI_S_FAILURE);
    WANT(control(0, &request, sizeof request, 5, 5) == VIRTIO_SCSI_S_FAILURE);
    control(0, &request, sizeof request, 6, 0);
    WANT(unit.ports[0].reported == 1u << GUEST_TYPE_IS_UNKNOWN);
    request.type = VIRTIO_SCSI_T_TMF;
    WANT(control(0, &request, sizeof request - 1, 1, 1) == VIRTIO_SCSI_S_FAILURE);
    WANT(control(0, &request, 3, 1, 1) == VIRTIO_SCSI_S_FAILURE);
    request.type = VIRTIO_SCSI_T_AN_QUERY;
    WANT(control(0, &request, 15, 5, 5) == VIRTIO_SCSI_S_FAILURE);
    WANT(control(0, &request, 16, 4, 4) == VIRTIO_SCSI_S_FAILURE);
    WANT(unit.ports[0].reported == (1u << GUEST_TYPE_IS_UNKNOWN | 1u << GUEST_HEADER_IS_SHORT));
    WANT(stub.happenings == 0);
}

/* Commands of a round share a flush, and no answer is out before it. */
static void answers_wait_for_a_flush(void)
{
    uint64_t tag;

    stub.error = MDL_FLUSH_OWED;
    for (tag = 1; tag < 5; tag++)
        send(0, tag, test_unit_ready, 6);
    send(1, 1, test_unit_ready, 6);
    WANT(!serve_round(&unit) && stub.flushes == 1 && stub.commands == 5);
    for (tag = 1; tag < 5; tag++)
        WANT(has_ended(0, tag, VIRTIO_SCSI_S_OK) && response_to(0, tag)->status == 0);
    WANT(has_ended(1, 1, VIRTIO_SCSI_S_OK) && nothing_has_ended(0));
    stub.flush_error = MDL_FILE_FAILED;
    send(0, 1, test_unit_ready, 6);
    send(1, 1, test_unit_ready, 6);
    serve_all();
    WANT(has_ended(0, 1, VIRTIO_SCSI_S_OK) && has_ended(1, 1, VIRTIO_SCSI_S_OK) && stub.flushes == 2);
    for (tag = 0; tag < 2; tag++)
        WANT(response_to((unsigned)tag, 1)->status == 2 && response_to((unsigned)tag, 1)->sense[2] == 4 &&
             response_to((unsigned)tag, 1)->sense[12] == 0x44);
}

/* Held commands end by what ends commands, and by nothing else (SAM-5, 6.3). */
static void happenings_end_held_commands(void)
{
    static const uint32_t resets[] = { MDL_POWER_CYCLE, MDL_LOGICAL_UNIT_RESET, MDL_TARGET_RESET };
    static const uint32_t others[] = { MDL_ATTENTION, MDL_GROW, MDL_ARM, MDL_DISARM, MDL_DISARM_ALL };
    unsigned it;

    for (it = 0; it < 3; it++) {
        hold_three();
        happens(resets[it], 0);
        WANT(has_ended(0, 2, VIRTIO_SCSI_S_RESET) && has_ended(0, 1, VIRTIO_SCSI_S_RESET));
        WANT(has_ended(1, 1, VIRTIO_SCSI_S_RESET));
    }
    hold_three();
    for (it = 0; it < 5; it++)
        happens(others[it], 0);
    WANT(nothing_has_ended(0) && nothing_has_ended(1));
    happens(MDL_NEXUS_LOSS, 1);
    WANT(nothing_has_ended(0) && has_ended(1, 1, VIRTIO_SCSI_S_RESET));
    happens(MDL_NEXUS_LOSS, 0);
    WANT(has_ended(0, 2, VIRTIO_SCSI_S_RESET) && has_ended(0, 1, VIRTIO_SCSI_S_RESET));
}

/* Growth is an event for each guest that takes events, once and as soon as it has a buffer. */
static void growth_is_an_event(void)
{
    const struct element small = { REGION_2, sizeof(struct virtio_scsi_event) - 1, IN };
    const struct element buffer = { REGION_2, sizeof(struct virtio_scsi_event), IN };
    static const uint8_t event[] = { 3, 0, 0, 0, 1, 0, 0, 0, 0, 0, 0, 0, 0x2A, 0x09, 0, 0 };
    uint32_t first, length;

    unit.ports[1].takes_events = 1;
    offer_chain(0, EVENT_QUEUE, 0, &buffer, 1);
    happens(MDL_LOGICAL_UNIT_RESET, 0);
    happens(MDL_GROW, 0);
    WANT(!take_used(0, EVENT_QUEUE, &first, &length) && !take_used(1, EVENT_QUEUE, &first, &length));
    offer_chain(1, EVENT_QUEUE, 3, &small, 1);
    offer_chain(1, EVENT_QUEUE, 4, &buffer, 1);
    offer_chain(1, EVENT_QUEUE, 5, &buffer, 1);
    serve_all();
    WANT(take_used(1, EVENT_QUEUE, &first, &length) && first == 3 && length == 0);
    WANT(unit.ports[1].reported == 1u << GUEST_HEADER_IS_SHORT);
    WANT(take_used(1, EVENT_QUEUE, &first, &length) && first == 4 && length == sizeof event);
    WANT(memcmp(at(1, REGION_2), event, sizeof event) == 0);
    serve_all();
    WANT(!take_used(1, EVENT_QUEUE, &first, &length));
}

/* No more than MOST_WAITING answers wait at a time, and each comes once. */
static void many_answers_wait(void)
{
    const struct element elements[] = { { place_of(0), HEADER, OUT }, { place_of(0) + 0x100, ANSWER, IN } };
    unsigned port, number, it, count = 0;
    uint32_t first, length;

    stub.error = MDL_FLUSH_OWED;
    for (port = 0; port < 2; port++) {
        send(port, 0, test_unit_ready, 6);
        for (number = REQUESTS; number < QUEUES; number++) {
            put_table(unit.ports[port].queues[number].ring.desc, 0, elements, 2);
            for (it = number == REQUESTS; it < QUEUE_SIZE; it++)
                offer(port, number, 0);
        }
    }
    serve_all();
    WANT(stub.commands == 4 * QUEUE_SIZE && stub.flushes == 4 * QUEUE_SIZE / MOST_WAITING);
    for (port = 0; port < 2; port++)
        for (number = REQUESTS; number < QUEUES; number++)
            while (take_used(port, number, &first, &length))
                count += first == 0 && length == ANSWER;
    WANT(count == 4 * QUEUE_SIZE);
}

void test_functions(void)
{
    static void (*const tests[])(void) = {
        functions_are_complete, functions_have_an_address, held_commands_end, preempted_commands_end,
        greatest_initiators_are_told_apart, held_commands_wait_for_their_queue, held_commands_are_few,
        commands_end_before_functions, no_event_is_reported, unknown_requests_fail, answers_wait_for_a_flush,
        many_answers_wait, happenings_end_held_commands, growth_is_an_event,
    };
    unsigned it;

    for (it = 0; it < sizeof tests / sizeof tests[0]; it++) {
        begin_guests_of_two_ports();
        tests[it]();
        end_guests_of_two_ports();
    }
}
