/* Not proved. What a guest gets for chains and rings that no driver makes (virtio 1.2, 2.7): nothing is
 * executed, each chain comes back, and no byte of its memory changes except those that the device may
 * write. */
#include <string.h>

#include "driver.h"
#include "requests.h"
#include "stub.h"

enum { HEADER = sizeof(struct virtio_scsi_cmd_req), ANSWER = sizeof(struct virtio_scsi_cmd_resp) };
enum { TABLE = REGION_0 + 0xA000, OF_DESCRIPTOR = sizeof(struct vring_desc) };

static const uint8_t test_unit_ready[6];
static const struct element header = { REQUEST, HEADER, OUT }, answer = { RESPONSE, ANSWER, IN };

/* Serves a chain that is offered, and looks at what came of it. Returns the length that was written. */
static uint32_t serve_broken(enum guest_fault fault)
{
    const struct virtio_scsi_cmd_resp *response = (struct virtio_scsi_cmd_resp *)at(0, RESPONSE);
    uint32_t first, length;

    memset(at(0, RESPONSE), 0xEE, 2 * ANSWER);
    unit.ports[0].reported = 0;
    serve_all();
    WANT(take_used(0, REQUESTS, &first, &length) && !take_used(0, REQUESTS, &first, &length));
    WANT(unit.ports[0].reported == 1u << fault && stub.commands == 0);
    WANT(at(0, RESPONSE)[length] == 0xEE);
    if (length > 0)
        WANT(response->response == VIRTIO_SCSI_S_FAILURE && response->status == 0 && length >= 12);
    return length;
}

static uint32_t serve_elements(const struct element *elements, unsigned count, enum guest_fault fault)
{
    put_request(0, 1, test_unit_ready, 6);
    offer_chain(0, REQUESTS, 0, elements, count);
    return serve_broken(fault);
}

static void headers_are_short(void)
{
    const struct element shorter = { REQUEST, HEADER - 1, OUT };
    const struct { uint32_t room, written; } rooms[] = { { 0, 0 }, { 1, 0 }, { 11, 0 }, { 12, 12 },
                                                         { 107, 107 } };
    const struct element of_request[] = { shorter, answer }, only_answer[] = { answer };
    struct element of_answer[] = { header, answer };
    unsigned it;

    WANT(serve_elements(of_request, 2, GUEST_HEADER_IS_SHORT) == ANSWER);
    WANT(serve_elements(only_answer, 1, GUEST_HEADER_IS_SHORT) == ANSWER);
    for (it = 0; it < sizeof rooms / sizeof rooms[0]; it++) {
        of_answer[1].length = rooms[it].room;
        WANT(serve_elements(of_answer, 2, GUEST_HEADER_IS_SHORT) == rooms[it].written);
    }
    WANT(serve_elements(&header, 1, GUEST_HEADER_IS_SHORT) == 0);
}

/* The last two begin in memory and end beyond it. */
static void addresses_are_outside(void)
{
    const struct element places[] = {
        { 0, 512, IN }, { REGION_0 - 1, 512, IN }, { HOLE, 1, IN }, { REGION_2 + REGION_2_LENGTH, 1, IN },
        { UINT64_MAX, 512, IN }, { UINT64_MAX - 511, 512, IN }, { HOLE - 1, 2, IN },
        { HOLE - 11, UINT32_MAX, IN },
    };
    struct element elements[] = { header, answer, header };
    unsigned it;

    for (it = 0; it < sizeof places / sizeof places[0]; it++) {
        elements[2] = places[it];
        WANT(serve_elements(elements, 3, (enum guest_fault)CHAIN_LEAVES_MEMORY) == ANSWER);
        elements[1] = places[it];
        WANT(serve_elements(elements, 2, (enum guest_fault)CHAIN_LEAVES_MEMORY) == 0);
        elements[1] = answer;
    }
}

/* Descriptors that come back to themselves or to an earlier one, and an index outside the table. */
static void chains_have_no_end(void)
{
    struct vring_desc *table = unit.ports[0].queues[REQUESTS].ring.desc;
    const struct element elements[] = { header, answer };
    unsigned it;

    for (it = 0; it < 2; it++) {
        put_table(table, 0, elements, 2);
        table[1].flags |= VRING_DESC_F_NEXT;
        table[1].next = (uint16_t)(it ? 1 : 0);
        offer(0, REQUESTS, 0);
        serve_broken((enum guest_fault)(it ? CHAIN_IS_TOO_LONG : CHAIN_IS_UNORDERED));
    }
    table[0].next = 0;
    offer(0, REQUESTS, 0);
    WANT(serve_broken((enum guest_fault)CHAIN_IS_TOO_LONG) == 0);
    table[0].next = QUEUE_SIZE;
    offer(0, REQUESTS, 0);
    WANT(serve_broken((enum guest_fault)CHAIN_LEAVES_TABLE) == 0);
    table[0].next = UINT16_MAX;
    offer(0, REQUESTS, 0);
    WANT(serve_broken((enum guest_fault)CHAIN_LEAVES_TABLE) == 0);
}

static void readable_comes_last(void)
{
    const struct element elements[] = { header, answer, { REGION_2, 512, OUT } };

    WANT(serve_elements(elements, 3, (enum guest_fault)CHAIN_IS_UNORDERED) == ANSWER);
}

/* Indirect tables that are right: alone, after other descriptors, in two regions, with the flag WRITE, which
 * means nothing. */
static void tables_are_read(void)
{
    const struct element both[] = { header, answer }, rest[] = { answer };
    struct element elements[] = { header, { TABLE, OF_DESCRIPTOR, INDIRECT } };
    const uint64_t places[] = { TABLE, REGION_1 - 24, REGION_2 + 8 };
    struct vring_desc table[2];
    uint32_t first, length;
    unsigned it;

    put_request(0, 1, test_unit_ready, 6);
    for (it = 0; it < 2 * sizeof places / sizeof places[0]; it++) {
        elements[1].address = places[it / 2];
        elements[1].length = 2 * OF_DESCRIPTOR;
        elements[1].flags = (uint16_t)(INDIRECT | (it % 2 ? IN : 0));
        put_table(table, 0, both, 2);
        memcpy(at(0, places[it / 2]), table, 24);
        memcpy(at(0, places[it / 2] + 24), (uint8_t *)table + 24, 8);
        offer_chain(0, REQUESTS, 3, elements + 1, 1);
        serve_all();
        WANT(take_used(0, REQUESTS, &first, &length) && first == 3 && length == ANSWER);
    }
    put_table((struct vring_desc *)at(0, TABLE), 0, rest, 1);
    elements[1] = (struct element){ TABLE, OF_DESCRIPTOR, INDIRECT };
    offer_chain(0, REQUESTS, 4, elements, 2);
    serve_all();
    WANT(take_used(0, REQUESTS, &first, &length) && first == 4 && length == ANSWER);
    WANT(stub.commands == 7 && unit.ports[0].reported == 0);
}

static void tables_are_broken(void)
{
    const struct element nested[] = { header, { TABLE + 64, OF_DESCRIPTOR, INDIRECT } };
    const struct element tables[] = { { TABLE, 0, INDIRECT }, { TABLE, OF_DESCRIPTOR + 1, INDIRECT },
                                      { TABLE, OF_DESCRIPTOR - 1, INDIRECT } };
    const struct element not_last[] = { header, { TABLE, OF_DESCRIPTOR, INDIRECT }, answer };
    const struct element outside = { HOLE - 8, 2 * OF_DESCRIPTOR, INDIRECT };
    struct vring_desc *table = (struct vring_desc *)at(0, TABLE);
    struct element indirect = { TABLE, 2 * OF_DESCRIPTOR, INDIRECT };
    unsigned it;

    put_table(table, 0, (const struct element[]){ header, answer }, 2);
    for (it = 0; it < 3; it++)
        serve_elements(&tables[it], 1, (enum guest_fault)CHAIN_HAS_BAD_TABLE);
    serve_elements(not_last, 3, (enum guest_fault)CHAIN_HAS_BAD_TABLE);
    serve_elements(&outside, 1, (enum guest_fault)CHAIN_LEAVES_MEMORY);
    table[0].next = 2;
    serve_elements(&indirect, 1, (enum guest_fault)CHAIN_LEAVES_TABLE);
    table[0].next = 0;
    serve_elements(&indirect, 1, (enum guest_fault)CHAIN_IS_TOO_LONG);
    put_table(table, 0, nested, 2);
    serve_elements(&indirect, 1, (enum guest_fault)CHAIN_HAS_BAD_TABLE);
}

/* Makes an indirect table of one descriptor again and again, and a header and an answer at its end. */
static void put_long_table(struct vring_desc *table, uint32_t length, struct element again)
{
    unsigned it;

    for (it = 0; it < length; it++) {
        put_table(table, it, it == length - 1 ? &answer : it == length - 2 ? &header : &again, 1);
        table[it].flags |= it == length - 1 ? 0 : VRING_DESC_F_NEXT;
        table[it].next = (uint16_t)(it + 1);
    }
}

/* One descriptor more than a chain may have, each of a byte or of none, and a loop in a table of 4 GiB. */
static void chains_are_long(void)
{
    struct vring_desc *table = (struct vring_desc *)at(0, REGION_2);
    const uint32_t length = MOST_PIECES + 1;
    const struct element indirect = { REGION_2, length * OF_DESCRIPTOR, INDIRECT };
    const struct element endless = { REGION_2, UINT32_MAX - OF_DESCRIPTOR + 1, INDIRECT };

    put_long_table(table, length, (struct element){ REQUEST, 1, OUT });
    WANT(serve_elements(&indirect, 1, (enum guest_fault)CHAIN_IS_TOO_LONG) == 0);
    put_long_table(table, length, (struct element){ REQUEST, 0, OUT });
    WANT(serve_elements(&indirect, 1, (enum guest_fault)CHAIN_IS_TOO_LONG) == 0);
    table[0].next = 0;
    WANT(serve_elements(&endless, 1, (enum guest_fault)CHAIN_IS_TOO_LONG) == 0);
}

/* A queue with an impossible index stops, and the others go on. */
static void rings_are_broken(void)
{
    struct queue *queue = &unit.ports[0].queues[REQUESTS];
    const struct element elements[] = { header, answer };
    uint32_t first, length;

    put_request(0, 1, test_unit_ready, 6);
    offer(0, REQUESTS, QUEUE_SIZE);
    offer_chain(0, REQUESTS + 1, 0, elements, 2);
    serve_all();
    WANT(queue->is_broken && !take_used(0, REQUESTS, &first, &length));
    WANT(unit.ports[0].reported == 1u << GUEST_RING_IS_BROKEN);
    WANT(take_used(0, REQUESTS + 1, &first, &length) && length == ANSWER && stub.commands == 1);
    queue->is_broken = 0;
    queue->ring.avail->ring[0] = 0;
    queue->ring.avail->idx = (uint16_t)(queue->next_avail + QUEUE_SIZE + 1);
    queue->is_pending = 1;
    serve_all();
    WANT(queue->is_broken && stub.commands == 1 && !take_used(0, REQUESTS, &first, &length));
}

/* The indexes of the rings have 16 bits, and go on at 0. */
static void indexes_go_round(void)
{
    struct queue *queue = &unit.ports[0].queues[REQUESTS];
    const struct element elements[] = { header, answer };
    unsigned it;

    put_request(0, 1, test_unit_ready, 6);
    queue->next_avail = queue->next_used = UINT16_MAX - 3;
    queue->ring.avail->idx = queue->ring.used->idx = UINT16_MAX - 3;
    for (it = 0; it < 8; it++) {
        offer_chain(0, REQUESTS, (uint16_t)(2 * it), elements, 2);
        serve_all();
        WANT(queue->ring.used->idx == (uint16_t)(UINT16_MAX - 2 + it));
        WANT(queue->ring.used->ring[(UINT16_MAX - 3 + it) % QUEUE_SIZE].id == 2 * it);
    }
    WANT(stub.commands == 8);
}

/* The guest's buffers for events stay with the device. */
static void events_stay(void)
{
    const struct element buffer = { REGION_2, sizeof(struct virtio_scsi_event), IN };
    uint32_t first, length;

    offer_chain(0, EVENT_QUEUE, 0, &buffer, 1);
    serve_all();
    WANT(!take_used(0, EVENT_QUEUE, &first, &length));
}

void test_broken_guests(void)
{
    static void (*const tests[])(void) = {
        headers_are_short, addresses_are_outside, chains_have_no_end, readable_comes_last, tables_are_read,
        tables_are_broken, chains_are_long, rings_are_broken, indexes_go_round, events_stay,
    };
    unsigned it;

    for (it = 0; it < sizeof tests / sizeof tests[0]; it++) {
        begin_guests_of_two_ports();
        tests[it]();
        end_guests_of_two_ports();
    }
}
