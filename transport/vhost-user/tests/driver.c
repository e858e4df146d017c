/* Not proved. See driver.h. */
#include "driver.h"

#include <string.h>

#include "requests.h"
#include "stub.h"

unsigned long checks;
struct unit unit;

static const struct { uint64_t address, length; } regions[] = {
    { REGION_0, REGION_0_LENGTH }, { REGION_1, REGION_1_LENGTH }, { REGION_2, REGION_2_LENGTH },
};
enum { REGIONS = sizeof regions / sizeof regions[0] };

/* The rings of a queue in region 0. */
enum { RINGS = 0x1000, AVAIL = 0x400, USED = 0x800 };

static uint16_t next_used[2][QUEUES];

/* Each region has an allocation of its own, so that the compiler's checks find an access outside. */
static struct rte_vhost_memory *make_memory(void)
{
    struct rte_vhost_memory *memory = calloc(1, sizeof *memory + REGIONS * sizeof memory->regions[0]);
    unsigned it;

    WANT(memory);
    memory->nregions = REGIONS;
    for (it = 0; it < REGIONS; it++) {
        memory->regions[it].guest_phys_addr = regions[it].address;
        memory->regions[it].size = regions[it].length;
        memory->regions[it].host_user_addr = (uintptr_t)calloc(1, regions[it].length);
        WANT(memory->regions[it].host_user_addr);
    }
    return memory;
}

uint8_t *at(unsigned port, uint64_t address)
{
    uint64_t length = 1;
    uint64_t place = rte_vhost_va_from_guest_pa(unit.ports[port].memory, address, &length);

    WANT(place);
    return (uint8_t *)(uintptr_t)place;
}

static void begin_queue(unsigned port, unsigned number)
{
    struct queue *queue = &unit.ports[port].queues[number];
    uint8_t *rings = at(port, REGION_0 + number * RINGS);

    queue->ring = (struct rte_vhost_vring){ .size = QUEUE_SIZE };
    queue->ring.desc = (struct vring_desc *)rings;
    queue->ring.avail = (struct vring_avail *)(rings + AVAIL);
    queue->ring.used = (struct vring_used *)(rings + USED);
    queue->is_ready = queue->is_running = 1;
    next_used[port][number] = 0;
}

void begin_guests_of_two_ports(void)
{
    static const char *const paths[] = { "first", "second" };
    unsigned port, number;

    /* The other ports are large, and never used. */
    memset(unit.ports, 0, 2 * sizeof unit.ports[0]);
    unit.held = NULL;
    unit.waiting_count = 0;
    reset_stub();
    unit.port_count = 2;
    for (port = 0; port < 2; port++) {
        unit.ports[port].path = paths[port];
        unit.ports[port].initiator = port;
        unit.ports[port].memory = make_memory();
        unit.ports[port].queue_count = QUEUES;
        for (number = 0; number < MOST_QUEUES; number++)
            unit.ports[port].queues[number].number = (uint16_t)number;
        for (number = 0; number < QUEUES; number++)
            begin_queue(port, number);
    }
}

void end_guests_of_two_ports(void)
{
    struct rte_vhost_memory *memory;
    unsigned port, it;

    WANT(!unit.held && !unit.waiting_count);
    for (port = 0; port < 2; port++) {
        memory = unit.ports[port].memory;
        for (it = 0; it < REGIONS; it++)
            free((void *)(uintptr_t)memory->regions[it].host_user_addr);
        free(memory);
    }
}

void put_table(struct vring_desc *table, unsigned first, const struct element *elements, unsigned count)
{
    unsigned it;

    for (it = 0; it < count; it++)
        table[first + it] = (struct vring_desc){
            elements[it].address, elements[it].length,
            (uint16_t)(elements[it].flags | (it + 1 < count ? VRING_DESC_F_NEXT : 0)),
            (uint16_t)(first + it + 1)
        };
}

void offer(unsigned port, unsigned number, uint16_t first)
{
    struct queue *queue = &unit.ports[port].queues[number];

    queue->ring.avail->ring[queue->ring.avail->idx % QUEUE_SIZE] = first;
    queue->ring.avail->idx++;
    queue->is_pending = 1;
}

void offer_chain(unsigned port, unsigned number, uint16_t first, const struct element *elements,
                 unsigned count)
{
    put_table(unit.ports[port].queues[number].ring.desc, first, elements, count);
    offer(port, number, first);
}

int take_used(unsigned port, unsigned number, uint32_t *first, uint32_t *length)
{
    const struct vring_used *used = unit.ports[port].queues[number].ring.used;
    uint16_t *next = &next_used[port][number];

    if (used->idx == *next)
        return 0;
    *first = used->ring[*next % QUEUE_SIZE].id;
    *length = used->ring[*next % QUEUE_SIZE].len;
    ++*next;
    return 1;
}

void put_request(unsigned port, uint64_t tag, const uint8_t *cdb, unsigned length)
{
    struct virtio_scsi_cmd_req request = { .lun = { 1, 0, 0x40, 0 }, .tag = tag };

    memcpy(request.cdb, cdb, length);
    memcpy(at(port, REQUEST), &request, sizeof request);
}

void serve_all(void)
{
    while (serve_round(&unit))
        continue;
}

const struct virtio_scsi_cmd_resp *ask(unsigned port, const struct element *data, unsigned count,
                                       uint32_t length)
{
    struct element elements[QUEUE_SIZE] = { { REQUEST, sizeof(struct virtio_scsi_cmd_req), OUT } };
    struct virtio_scsi_cmd_resp *response = (struct virtio_scsi_cmd_resp *)at(port, RESPONSE);
    unsigned it, all = 1;
    uint32_t first, used;

    memset(response, 0xEE, sizeof *response);
    for (it = 0; it < count && data[it].flags == OUT; it++)
        elements[all++] = data[it];
    elements[all++] = (struct element){ RESPONSE, sizeof *response, IN };
    for (; it < count; it++)
        elements[all++] = data[it];
    offer_chain(port, REQUESTS, 0, elements, all);
    serve_all();
    WANT(take_used(port, REQUESTS, &first, &used) && first == 0 && used == length);
    WANT(!take_used(port, REQUESTS, &first, &used));
    return response;
}
