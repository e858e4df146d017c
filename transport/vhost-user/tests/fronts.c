/* Not proved. What front ends do by librte_vhost, which vhost.c stands for: connections, memory, queues that
 * start and stop, and kicks. */
#include <errno.h>
#include <linux/virtio_config.h>
#include <string.h>
#include <sys/eventfd.h>
#include <unistd.h>

#include "driver.h"
#include "guests.h"
#include "held.h"
#include "requests.h"
#include "stub.h"
#include "vhost.h"

/* Messages of the protocol: SET_FEATURES stands for those that change neither queues nor memory. */
enum { SET_FEATURES = 2, RESET_OWNER = 4, SET_MEM_TABLE = 5 };

enum { MEMORY = 0x10000, SIZE = 16, DESC = 0x1000, AVAIL = 0x2000, USED = 0x3000, FIRST = 0, SECOND = 1 };

static struct guests guests;
static uint8_t *memory;
static int kick;

/* Sets up a queue whose rings are at these offsets. */
static void set_ring(int guest, uint16_t queue, uint64_t desc, uint64_t avail, uint64_t used, uint16_t size)
{
    vhost.rings[guest][queue] = (struct rte_vhost_vring){ .kickfd = kick, .callfd = -1, .size = size };
    vhost.rings[guest][queue].desc = (struct vring_desc *)(memory + desc);
    vhost.rings[guest][queue].avail = (struct vring_avail *)(memory + avail);
    vhost.rings[guest][queue].used = (struct vring_used *)(memory + used);
}

static void begin(void)
{
    static const char *const paths[] = { "first", "second" };
    unsigned it;

    memset(&unit, 0, sizeof unit);
    memset(&vhost, 0, sizeof vhost);
    reset_stub();
    memory = aligned_alloc(0x1000, MEMORY);
    kick = eventfd(0, EFD_NONBLOCK);
    WANT(memory && kick >= 0);
    memset(memory, 0, MEMORY);
    vhost.region = (struct rte_vhost_mem_region){ .guest_phys_addr = 0, .size = MEMORY,
                                                  .host_user_addr = (uintptr_t)memory };
    unit.port_count = 2;
    for (it = 0; it < 2; it++) {
        unit.ports[it].path = vhost.paths[it] = paths[it];
        unit.ports[it].initiator = it;
    }
    WANT(begin_guests(&guests, &unit) && !listen_for_guests(&guests) && vhost.sockets == 2);
}

static void end(void)
{
    end_guests(&guests);
    WANT(vhost.sockets == 0 && !unit.held);
    WANT(unit.ports[0].guest == NO_GUEST && unit.ports[1].guest == NO_GUEST);
    close(guests.kicks);
    close(guests.news);
    close(kick);
    free(memory);
}

static void before(int guest, uint32_t request)
{
    WANT(vhost.messages->pre_msg_handle(guest, &request) == RTE_VHOST_MSG_RESULT_NOT_HANDLED);
}

static void after(int guest, uint32_t request)
{
    WANT(vhost.messages->post_msg_handle(guest, &request) == RTE_VHOST_MSG_RESULT_NOT_HANDLED);
}

static void message(int guest, uint32_t request)
{
    before(guest, request);
    after(guest, request);
}

/* Connects the first guest, which shares its memory and starts the first request queue. */
static struct queue *start_queue(void)
{
    WANT(vhost.device->new_connection(FIRST) == 0);
    message(FIRST, SET_MEM_TABLE);
    set_ring(FIRST, REQUESTS, DESC, AVAIL, USED, SIZE);
    WANT(vhost.device->vring_state_changed(FIRST, REQUESTS, 1) == 0);
    return &unit.ports[0].queues[REQUESTS];
}

/* What the device offers: nothing that it does not do. */
static void features_are_few(void)
{
    const uint64_t wanted = 1ULL << VIRTIO_SCSI_F_HOTPLUG | 1ULL << VIRTIO_SCSI_F_CHANGE |
                            1ULL << VIRTIO_F_ANY_LAYOUT | 1ULL << VIRTIO_RING_F_INDIRECT_DESC |
                            1ULL << VHOST_USER_F_PROTOCOL_FEATURES | 1ULL << VIRTIO_F_VERSION_1;

    WANT(vhost.features == wanted);
}

/* One guest at a time at each socket. A guest that goes away is a lost nexus of its initiator. */
static void guests_come_and_go(void)
{
    vhost.paths[2] = "second";
    vhost.paths[3] = "third";
    WANT(vhost.device->new_connection(SECOND) == 0 && unit.ports[1].guest == SECOND);
    WANT(vhost.device->new_connection(2) < 0 && vhost.device->new_connection(3) < 0);
    vhost.device->destroy_connection(2);
    WANT(stub.happenings == 0);
    vhost.device->destroy_connection(SECOND);
    WANT(stub.happenings == 1 && stub.happening.kind == MDL_NEXUS_LOSS && stub.happening.initiator == 1);
    WANT(vhost.device->new_connection(2) == 0 && unit.ports[1].guest == 2 && unit.ports[0].guest == NO_GUEST);
}

/* A queue runs if it is ready and the guest has shared its memory, and not before. */
static void queues_need_memory(void)
{
    struct queue *queue = &unit.ports[0].queues[REQUESTS];

    WANT(vhost.device->new_connection(FIRST) == 0);
    set_ring(FIRST, REQUESTS, DESC, AVAIL, USED, SIZE);
    message(FIRST, SET_FEATURES);
    vhost.device->vring_state_changed(FIRST, REQUESTS, 1);
    WANT(!queue->is_running && vhost.tables == 0);
    vhost.bases[FIRST][REQUESTS][0] = 7;
    vhost.bases[FIRST][REQUESTS][1] = 5;
    message(FIRST, SET_MEM_TABLE);
    WANT(queue->is_running && queue->is_pending && queue->next_avail == 7 && queue->next_used == 5);
    message(FIRST, RESET_OWNER);
    WANT(!queue->is_running && vhost.tables == 1);
    message(FIRST, SET_MEM_TABLE);
    WANT(queue->is_running);
    before(FIRST, SET_MEM_TABLE);
    message(FIRST, SET_FEATURES);
    WANT(!queue->is_running && vhost.tables == 2);
}

/* Rings that are not wholly in memory, are not aligned, or have no size of virtio (virtio 1.2, 2.7). */
static void rings_are_in_memory(void)
{
    static const struct { uint64_t desc, avail, used; uint16_t size; int runs; } places[] = {
        { DESC, AVAIL, USED, SIZE, 1 }, { DESC, AVAIL, USED, 1, 1 }, { DESC, AVAIL, USED, 0, 0 },
        { DESC, AVAIL, USED, 12, 0 }, { DESC + 8, AVAIL, USED, SIZE, 0 }, { DESC, AVAIL + 1, USED, SIZE, 0 },
        { DESC, AVAIL, USED + 2, SIZE, 0 }, { MEMORY - 256, AVAIL, USED, SIZE, 1 },
        { MEMORY - 240, AVAIL, USED, SIZE, 0 }, { DESC, MEMORY - 36, USED, SIZE, 1 },
        { DESC, MEMORY - 34, USED, SIZE, 0 }, { DESC, AVAIL, MEMORY - 132, SIZE, 1 },
        { DESC, AVAIL, MEMORY - 128, SIZE, 0 }, { MEMORY, AVAIL, USED, SIZE, 0 },
        { (uint64_t)-16, AVAIL, USED, SIZE, 0 },
    };
    struct queue *queue = start_queue();
    unsigned it;

    for (it = 0; it < sizeof places / sizeof places[0]; it++) {
        set_ring(FIRST, REQUESTS, places[it].desc, places[it].avail, places[it].used, places[it].size);
        message(FIRST, SET_FEATURES);
        WANT(queue->is_running == places[it].runs);
    }
    set_ring(FIRST, REQUESTS, DESC, AVAIL, USED, SIZE);
    vhost.rings[FIRST][REQUESTS].kickfd = -1;
    message(FIRST, SET_FEATURES);
    WANT(!queue->is_running);
    vhost.rings[FIRST][REQUESTS].kickfd = kick;
    vhost.rings[FIRST][REQUESTS].desc = NULL;
    message(FIRST, SET_FEATURES);
    WANT(!queue->is_running);
}

/* A kick marks its queue, and no other. A queue that does not run has no kicks. */
static void kicks_are_taken(void)
{
    struct queue *queue = start_queue();

    queue->is_pending = 0;
    take_kicks(&guests);
    WANT(!queue->is_pending);
    eventfd_write(kick, 1);
    take_kicks(&guests);
    WANT(queue->is_pending && !unit.ports[1].queues[REQUESTS].is_pending);
    WANT(!unit.ports[0].queues[CONTROL_QUEUE].is_pending);
    queue->is_pending = 0;
    before(FIRST, SET_FEATURES);
    eventfd_write(kick, 1);
    take_kicks(&guests);
    WANT(!queue->is_pending);
    after(FIRST, SET_FEATURES);
    WANT(queue->is_pending);
}

/* During a message, and after one that has failed, nobody looks at the memory. The indexes are
 * librte_vhost's. */
static void messages_pause(void)
{
    struct queue *queue = start_queue();

    queue->next_avail = 11;
    queue->next_used = 9;
    before(FIRST, SET_FEATURES);
    WANT(!queue->is_running && unit.ports[0].is_paused && !unit.ports[0].memory);
    WANT(vhost.bases[FIRST][REQUESTS][0] == 11 && vhost.bases[FIRST][REQUESTS][1] == 9);
    vhost.device->vring_state_changed(FIRST, REQUESTS, 1);
    WANT(!queue->is_running && !serve_round(&unit));
    queue->next_avail = queue->next_used = 0;
    message(FIRST, SET_FEATURES);
    WANT(queue->is_running && queue->next_avail == 11 && queue->next_used == 9);
    before(SECOND, SET_FEATURES);
    WANT(queue->is_running);
}

/* A guest is told once. If it can't be told now, it is told later. */
static void guests_are_told(void)
{
    struct queue *queue = start_queue();

    put_used(queue, 0, 0);
    vhost.call_result = -EAGAIN;
    WANT(!call_guests(&guests) && !call_guests(&guests) && vhost.calls == 2);
    before(FIRST, SET_FEATURES);
    WANT(call_guests(&guests) && vhost.calls == 2);
    after(FIRST, SET_FEATURES);
    vhost.call_result = 0;
    WANT(call_guests(&guests) && call_guests(&guests) && vhost.calls == 3);
}

/* A queue that is disabled ends its held commands by FAILURE (virtio 1.2, 5.6.6.1). One that is gone has
 * none. */
static void stopped_queues_hold_nothing(void)
{
    struct queue *queue = start_queue();
    const struct element elements[] = { { 0x4000, sizeof(struct virtio_scsi_cmd_req), OUT },
                                        { 0x5000, sizeof(struct virtio_scsi_cmd_resp), IN } };
    const struct virtio_scsi_cmd_resp *response = (struct virtio_scsi_cmd_resp *)(memory + 0x5000);

    put_table(queue->ring.desc, 0, elements, 2);
    WANT(hold(&unit, &unit.ports[0], queue, 0, 1));
    vhost.device->vring_state_changed(FIRST, REQUESTS, 0);
    WANT(!unit.held && !queue->is_running && queue->held == 0 && vhost.bases[FIRST][REQUESTS][1] == 1);
    WANT(response->response == VIRTIO_SCSI_S_FAILURE);
    vhost.device->vring_state_changed(FIRST, REQUESTS, 1);
    WANT(hold(&unit, &unit.ports[0], queue, 0, 1));
    before(FIRST, SET_FEATURES);
    vhost.device->vring_state_changed(FIRST, REQUESTS, 0);
    WANT(!unit.held && vhost.bases[FIRST][REQUESTS][1] == 1);
    after(FIRST, SET_FEATURES);
    WANT(!queue->is_running);
    vhost.device->vring_state_changed(FIRST, REQUESTS, 1);
    WANT(hold(&unit, &unit.ports[0], queue, 0, 1));
    vhost.device->destroy_connection(FIRST);
    WANT(!unit.held && vhost.bases[FIRST][REQUESTS][1] == 1);
}

/* A queue with a broken ring runs again when the driver has started it again. */
static void broken_queues_start_again(void)
{
    static struct port other;
    struct queue *queue = start_queue();

    queue->is_broken = 1;
    message(FIRST, SET_FEATURES);
    WANT(queue->is_broken);
    vhost.device->vring_state_changed(FIRST, REQUESTS, 0);
    vhost.device->vring_state_changed(FIRST, REQUESTS, 1);
    WANT(!queue->is_broken && queue->is_running);
    queue->next_avail = 3;
    vhost.device->vring_state_changed(FIRST, REQUESTS, 1);
    WANT(queue->is_running && queue->next_avail == 3);
    other = unit.ports[1];
    vhost.device->vring_state_changed(FIRST, MOST_QUEUES, 1);
    vhost.device->vring_state_changed(SECOND, REQUESTS, 1);
    WANT(memcmp(&unit.ports[1], &other, sizeof other) == 0);
}

/* Events are only for a guest that has negotiated them. */
static void events_are_negotiated(void)
{
    start_queue();
    WANT(!unit.ports[0].takes_events);
    vhost.negotiated[FIRST] = 1ULL << VIRTIO_SCSI_F_CHANGE;
    message(FIRST, SET_FEATURES);
    WANT(unit.ports[0].takes_events);
    vhost.device->destroy_connection(FIRST);
    WANT(!unit.ports[0].takes_events);
}

void test_front_ends(void)
{
    static void (*const tests[])(void) = {
        features_are_few, guests_come_and_go, queues_need_memory, rings_are_in_memory, kicks_are_taken,
        messages_pause, guests_are_told, stopped_queues_hold_nothing, broken_queues_start_again,
        events_are_negotiated,
    };
    unsigned it;

    for (it = 0; it < sizeof tests / sizeof tests[0]; it++) {
        begin();
        tests[it]();
        end();
    }
}
