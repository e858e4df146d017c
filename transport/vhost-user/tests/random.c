/* Not proved. Guests that write random descriptors, requests and rings. */
#include <string.h>

#include "driver.h"
#include "held.h"
#include "requests.h"
#include "stub.h"
#include "tests/below.h"

static uint64_t seed = 1;

/* A guest that writes over its own rings may keep the device busy for ever. */
enum { MOST_SERVED = 100 };

/* Often near an end of a region. If the guest is not wild, it is none of the rings. */
static uint64_t random_address(int is_wild)
{
    static const uint64_t places[] = { REQUEST, RESPONSE, REGION_1, HOLE, REGION_2,
                                       REGION_2 + REGION_2_LENGTH, 0, UINT64_MAX, REGION_0 };
    uint64_t place = places[below(&seed, is_wild ? 9 : 8)];

    return place + (below(&seed, 2) ? below(&seed, 0x10000) : 0) - below(&seed, 300);
}

static uint32_t random_length(void)
{
    static const uint32_t lengths[] = { 0, 1, 16, 24, 51, 108, 512, 4096, REGION_2_LENGTH, UINT32_MAX };

    return lengths[below(&seed, 10)] + (below(&seed, 4) ? 0 : below(&seed, 64));
}

/* Any descriptor, or one of a request that is nearly right. */
static void put_random_descriptor(struct vring_desc *descriptor, unsigned index, int is_wild)
{
    static const struct vring_desc parts[] = {
        { REQUEST, sizeof(struct virtio_scsi_cmd_req), VRING_DESC_F_NEXT, 0 },
        { RESPONSE, sizeof(struct virtio_scsi_cmd_resp), VRING_DESC_F_WRITE, 0 },
        { RESPONSE, sizeof(struct virtio_scsi_cmd_resp), VRING_DESC_F_WRITE | VRING_DESC_F_NEXT, 0 },
        { REQUEST, sizeof(struct virtio_scsi_ctrl_tmf_req), VRING_DESC_F_NEXT, 0 },
        { REGION_2, 64, VRING_DESC_F_INDIRECT, 0 },
    };

    if (below(&seed, 3)) {
        *descriptor = parts[below(&seed, 2) ? index % 2 : below(&seed, 5)];
        descriptor->next = (uint16_t)(below(&seed, 8) ? (index + 1) % QUEUE_SIZE : below(&seed, QUEUE_SIZE));
        return;
    }
    descriptor->addr = random_address(is_wild);
    descriptor->len = random_length();
    descriptor->flags = (uint16_t)below(&seed, 8);
    descriptor->next = (uint16_t)below(&seed, QUEUE_SIZE + 2);
}

/* Any bytes, or the header of a command or of a function for LUN 0; and a table for indirect descriptors. */
static void put_random_memory(unsigned port, int is_wild)
{
    static const uint8_t lun[8] = { 1, 0, 0x40 };
    uint8_t *request = at(port, REQUEST);
    struct vring_desc *table = (struct vring_desc *)at(port, REGION_2);
    unsigned it, kind = below(&seed, 3);

    for (it = 0; it < sizeof(struct virtio_scsi_cmd_req); it++)
        request[it] = (uint8_t)(below(&seed, 2) ? below(&seed, 256) : 0);
    if (kind == 1)
        memcpy(request, lun, sizeof lun);
    if (kind == 2) {
        memset(request, 0, 8);
        request[4] = (uint8_t)below(&seed, 9);
        memcpy(request + 8, lun, sizeof lun);
    }
    for (it = 0; it < 4; it++)
        put_random_descriptor(&table[it], it, is_wild);
}

static void put_random_reply(void)
{
    static const uint8_t statuses[] = { MDL_GOOD, MDL_CHECK_CONDITION, MDL_BUSY, MDL_NO_REPLY };
    static const uint64_t lengths[] = { 0, 36, 512, STUB_DATA, UINT64_MAX };

    stub.reply.status = statuses[below(&seed, 4)];
    stub.reply.sense_length = stub.reply.status == MDL_CHECK_CONDITION ? 18 : 0;
    stub.reply.data_in_length = lengths[below(&seed, 4)];
    stub.reply.data_out_length = lengths[below(&seed, 5)];
    stub.error = below(&seed, 2) ? MDL_FLUSH_OWED : MDL_OK;
    stub.flush_error = below(&seed, 16) ? MDL_OK : MDL_FILE_FAILED;
}

/* Offers chains of random descriptors in a queue. A wild guest also breaks its rings. */
static void offer_random(unsigned port, unsigned number, int is_wild)
{
    struct queue *queue = &unit.ports[port].queues[number];
    unsigned it, count = 1 + below(&seed, QUEUE_SIZE - 1);

    for (it = 0; it < QUEUE_SIZE; it++)
        put_random_descriptor(&queue->ring.desc[it], it, is_wild);
    for (it = 0; it < count; it++)
        offer(port, number, (uint16_t)below(&seed, QUEUE_SIZE));
    if (is_wild && below(&seed, 4) == 0) {
        queue->ring.avail->ring[below(&seed, QUEUE_SIZE)] = (uint16_t)below(&seed, 1 << 16);
        queue->ring.avail->idx = (uint16_t)(queue->ring.avail->idx + below(&seed, 64));
    }
}

/* Each chain that was taken has come back, unless it is held. If the guest is not wild, all were taken. */
static void want_all_returned(int is_wild)
{
    const struct queue *queue;
    unsigned port, number;

    for (port = 0; port < 2; port++)
        for (number = 0; number < QUEUES; number++) {
            queue = &unit.ports[port].queues[number];
            WANT((uint16_t)(queue->next_avail - queue->next_used) == queue->held);
            WANT(is_wild || (!queue->is_broken && queue->ring.avail->idx == queue->next_avail &&
                             queue->ring.used->idx == queue->next_used));
        }
}

static void serve_random_guests(int is_wild)
{
    unsigned port, number, it;

    put_random_reply();
    for (port = 0; port < 2; port++) {
        unit.ports[port].reported = UINT32_MAX;
        put_random_memory(port, is_wild);
        for (number = 0; number < QUEUES; number++)
            if (number != EVENT_QUEUE && below(&seed, 2))
                offer_random(port, number, is_wild);
    }
    for (it = 0; it < MOST_SERVED && serve_round(&unit); it++)
        continue;
    want_all_returned(is_wild);
}

void test_random_guests(unsigned rounds)
{
    unsigned long executed = 0, happened = 0;
    unsigned round, it;

    for (round = 0; round < rounds; round++) {
        begin_guests_of_two_ports();
        for (it = 0; it < 8; it++)
            serve_random_guests(round % 2);
        forget_held(&unit, &unit.ports[0], NULL);
        forget_held(&unit, &unit.ports[1], NULL);
        executed += stub.commands;
        happened += stub.happenings;
        end_guests_of_two_ports();
    }
    /* Otherwise the random guests would try nothing. */
    WANT(rounds == 0 || (executed > rounds && happened > rounds / 8));
    if (rounds > 0)
        printf("%lu commands, %lu resets\n", executed, happened);
}
