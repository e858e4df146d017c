/* Not proved. See guests.h. */
#include "guests.h"

#include <errno.h>
#include <limits.h>
#include <linux/virtio_config.h>
#include <stdio.h>
#include <stdlib.h>
#include <string.h>
#include <sys/epoll.h>
#include <sys/eventfd.h>
#include <unistd.h>

#include "held.h"

/* Linux gives the device no buffer for events without VIRTIO_SCSI_F_HOTPLUG, though nothing is ever plugged.
 * VIRTIO_SCSI_F_INOUT is not here, because the disk has no bidirectional command. */
static const uint64_t features = 1ULL << VIRTIO_SCSI_F_HOTPLUG | 1ULL << VIRTIO_SCSI_F_CHANGE |
                                 1ULL << VIRTIO_F_VERSION_1 | 1ULL << VIRTIO_F_ANY_LAYOUT |
                                 1ULL << VIRTIO_RING_F_INDIRECT_DESC | 1ULL << VHOST_USER_F_PROTOCOL_FEATURES;
static const uint64_t protocol_features = 1ULL << VHOST_USER_PROTOCOL_F_MQ |
                                          1ULL << VHOST_USER_PROTOCOL_F_REPLY_ACK;

enum { MOST_EVENTS = 64, NEWS = UINT16_MAX };

/* Messages of a front end after which librte_vhost may have no memory of the guest. A message begins with
 * its number. */
enum { RESET_OWNER = 4, SET_MEM_TABLE = 5 };

/* librte_vhost's callbacks have no argument for it. */
static struct guests *the_guests;

/* An edge is an event, so nobody needs to read the eventfd of a queue. */
static int watch(int epoll, int descriptor, uint16_t port, uint16_t queue)
{
    struct epoll_event event = { .events = EPOLLIN | EPOLLET, .data.u32 = (uint32_t)port << 16 | queue };

    return epoll_ctl(epoll, EPOLL_CTL_ADD, descriptor, &event) == 0;
}

int begin_guests(struct guests *guests, struct unit *unit)
{
    guests->unit = unit;
    guests->kicks = epoll_create1(EPOLL_CLOEXEC);
    guests->news = eventfd(0, EFD_CLOEXEC | EFD_NONBLOCK);
    the_guests = guests;
    return pthread_mutex_init(&guests->lock, NULL) == 0 && guests->kicks >= 0 && guests->news >= 0 &&
           watch(guests->kicks, guests->news, NEWS, 0);
}

/* The port of a connection, or null. */
static struct port *find_port(const struct guests *guests, int guest)
{
    struct unit *unit = guests->unit;
    unsigned at;

    for (at = 0; at < unit->port_count; at++)
        if (unit->ports[at].guest == guest)
            return &unit->ports[at];
    return NULL;
}

/* Returns 1 if memory of the guest has all bytes of a ring, which begins at a multiple of `alignment`. */
static int is_mapped(const struct rte_vhost_memory *memory, const void *ring, uint64_t length,
                     uint64_t alignment)
{
    uint64_t start = (uint64_t)(uintptr_t)ring, from;
    uint32_t at;

    for (at = 0; at < memory->nregions; at++) {
        from = memory->regions[at].host_user_addr;
        if (start >= from && start - from <= memory->regions[at].size &&
            length <= memory->regions[at].size - (start - from))
            return start % alignment == 0;
    }
    return 0;
}

/* The three parts of a split virtqueue, with their alignments (virtio 1.2, 2.7). */
static int is_usable(const struct rte_vhost_memory *memory, const struct rte_vhost_vring *ring)
{
    uint64_t size = ring->size;

    return size > 0 && (size & (size - 1)) == 0 &&
           is_mapped(memory, ring->desc, size * sizeof(struct vring_desc), 16) &&
           is_mapped(memory, ring->avail, sizeof(struct vring_avail) + size * sizeof(uint16_t), 2) &&
           is_mapped(memory, ring->used,
                     sizeof(struct vring_used) + size * sizeof(struct vring_used_elem), 4);
}

/* Lets a queue run that the front end has started. librte_vhost has had its indexes until now. A paused port
 * has no memory. */
static void run_queue(struct guests *guests, struct port *port, struct queue *queue)
{
    if (!port->memory || !queue->is_ready || queue->is_running ||
        rte_vhost_get_vhost_vring(port->guest, queue->number, &queue->ring) ||
        !is_usable(port->memory, &queue->ring) ||
        rte_vhost_get_vring_base(port->guest, queue->number, &queue->next_avail, &queue->next_used))
        return;
    if (!watch(guests->kicks, queue->ring.kickfd, (uint16_t)(port - guests->unit->ports), queue->number))
        return;
    queue->is_running = queue->is_pending = 1;
    if (port->queue_count <= queue->number)
        port->queue_count = queue->number + 1u;
    eventfd_write(guests->news, 1);
}

static void stop_queue(const struct guests *guests, const struct port *port, struct queue *queue)
{
    if (!queue->is_running)
        return;
    queue->is_running = 0;
    epoll_ctl(guests->kicks, EPOLL_CTL_DEL, queue->ring.kickfd, NULL);
    rte_vhost_set_vring_base(port->guest, queue->number, queue->next_avail, queue->next_used);
}

/* From here on nobody looks at the guest's memory. */
static void pause_port(const struct guests *guests, struct port *port)
{
    unsigned number;

    for (number = 0; number < port->queue_count; number++)
        stop_queue(guests, port, &port->queues[number]);
    free(port->memory);
    port->memory = NULL;
    port->is_paused = 1;
}

static void resume_port(struct guests *guests, struct port *port)
{
    uint64_t negotiated = 0;
    unsigned number;

    rte_vhost_get_negotiated_features(port->guest, &negotiated);
    port->takes_events = negotiated >> VIRTIO_SCSI_F_CHANGE & 1;
    if (!port->has_memory || rte_vhost_get_mem_table(port->guest, &port->memory))
        port->memory = NULL;
    port->is_paused = 0;
    for (number = 0; number < MOST_QUEUES; number++)
        run_queue(guests, port, &port->queues[number]);
    answer_ended(guests->unit, port);
}

/* Any message may change queues or memory, so the port is paused meanwhile. */
static enum rte_vhost_msg_result before_message(int guest, void *message)
{
    const uint32_t *request = message;
    struct port *port;

    pthread_mutex_lock(&the_guests->lock);
    port = find_port(the_guests, guest);
    if (port) {
        pause_port(the_guests, port);
        port->has_memory &= *request != SET_MEM_TABLE && *request != RESET_OWNER;
    }
    pthread_mutex_unlock(&the_guests->lock);
    return RTE_VHOST_MSG_RESULT_NOT_HANDLED;
}

/* librte_vhost calls this if the message has not failed. */
static enum rte_vhost_msg_result after_message(int guest, void *message)
{
    const uint32_t *request = message;
    struct port *port;

    pthread_mutex_lock(&the_guests->lock);
    port = find_port(the_guests, guest);
    if (port) {
        port->has_memory |= *request == SET_MEM_TABLE;
        resume_port(the_guests, port);
    }
    pthread_mutex_unlock(&the_guests->lock);
    return RTE_VHOST_MSG_RESULT_NOT_HANDLED;
}

/* A front end starts, enables, disables or stops a queue. Held commands end before it stops (virtio 1.2,
 * 5.6.6.1), if it is disabled first, as by qemu. */
static int change_queue(int guest, uint16_t number, int is_ready)
{
    struct port *port;
    struct queue *queue;

    pthread_mutex_lock(&the_guests->lock);
    port = find_port(the_guests, guest);
    if (port && number < MOST_QUEUES) {
        queue = &port->queues[number];
        queue->is_ready = is_ready;
        queue->is_broken = 0;
        if (is_ready)
            run_queue(the_guests, port, queue);
        else {
            end_held_in(the_guests->unit, queue, VIRTIO_SCSI_S_FAILURE);
            stop_queue(the_guests, port, queue);
            forget_held(the_guests->unit, port, queue);
        }
    }
    pthread_mutex_unlock(&the_guests->lock);
    return 0;
}

static const struct rte_vhost_user_extern_ops message_calls = { before_message, after_message };

/* A second front end at a socket finds its connection closed. */
static int connect_guest(int guest)
{
    char path[PATH_MAX];
    struct port *port;
    unsigned at;
    int result = -1;

    if (rte_vhost_get_ifname(guest, path, sizeof path))
        return -1;
    pthread_mutex_lock(&the_guests->lock);
    for (at = 0; at < the_guests->unit->port_count; at++) {
        port = &the_guests->unit->ports[at];
        if (strcmp(port->path, path) != 0 || port->guest != NO_GUEST)
            continue;
        result = rte_vhost_extern_callback_register(guest, &message_calls, NULL);
        if (!result) {
            port->guest = guest;
            port->has_memory = 0;
            port->reported = 0;
        }
    }
    pthread_mutex_unlock(&the_guests->lock);
    return result;
}

static void leave_port(const struct guests *guests, struct port *port)
{
    unsigned number;

    pause_port(guests, port);
    forget_held(guests->unit, port, NULL);
    for (number = 0; number < MOST_QUEUES; number++)
        port->queues[number] = (struct queue){ .number = (uint16_t)number };
    port->guest = NO_GUEST;
    port->takes_events = port->owes_event = 0;
    port->queue_count = 0;
}

/* A guest that goes away is a lost I_T nexus (SAM-5, 6.3). */
static void disconnect_guest(int guest)
{
    mdl_happening loss = { .kind = MDL_NEXUS_LOSS };
    struct port *port;

    pthread_mutex_lock(&the_guests->lock);
    port = find_port(the_guests, guest);
    if (port) {
        leave_port(the_guests, port);
        loss.initiator = port->initiator;
        if (mdl_happen(&the_guests->unit->disk, &loss))
            fprintf(stderr, "serve: %s: the disk has failed\n", port->path);
    }
    pthread_mutex_unlock(&the_guests->lock);
}

static const struct rte_vhost_device_ops device_calls = {
    .vring_state_changed = change_queue,
    .new_connection = connect_guest,
    .destroy_connection = disconnect_guest,
};

static int listen_at(const char *path)
{
    return rte_vhost_driver_register(path, 0) == 0 && rte_vhost_driver_set_features(path, features) == 0 &&
           rte_vhost_driver_set_protocol_features(path, protocol_features) == 0 &&
           rte_vhost_driver_callback_register(path, &device_calls) == 0 && rte_vhost_driver_start(path) == 0;
}

const char *listen_for_guests(struct guests *guests)
{
    struct unit *unit = guests->unit;
    unsigned at, number;

    for (at = 0; at < unit->port_count; at++) {
        unit->ports[at].guest = NO_GUEST;
        for (number = 0; number < MOST_QUEUES; number++)
            unit->ports[at].queues[number].number = (uint16_t)number;
    }
    for (at = 0; at < unit->port_count; at++)
        if (!listen_at(unit->ports[at].path))
            return unit->ports[at].path;
    return NULL;
}

void take_kicks(struct guests *guests)
{
    struct epoll_event events[MOST_EVENTS];
    int count = epoll_wait(guests->kicks, events, MOST_EVENTS, 0), at;
    unsigned port;

    for (at = 0; at < count; at++) {
        port = events[at].data.u32 >> 16;
        if (port < guests->unit->port_count)
            guests->unit->ports[port].queues[events[at].data.u32 % MOST_QUEUES].is_pending = 1;
    }
}

/* librte_vhost may hold the queue's lock while it waits for ours, so this must not wait. */
int call_guests(struct guests *guests)
{
    struct unit *unit = guests->unit;
    unsigned at, number;
    struct queue *queue;
    int is_done = 1;

    for (at = 0; at < unit->port_count; at++)
        for (number = 0; number < unit->ports[at].queue_count; number++) {
            queue = &unit->ports[at].queues[number];
            if (!queue->owes_call || !queue->is_running)
                continue;
            queue->owes_call = rte_vhost_vring_call_nonblock(unit->ports[at].guest, queue->number) == -EAGAIN;
            is_done &= !queue->owes_call;
        }
    return is_done;
}

void end_guests(struct guests *guests)
{
    struct unit *unit = guests->unit;
    unsigned at;

    pthread_mutex_lock(&guests->lock);
    for (at = 0; at < unit->port_count; at++)
        if (unit->ports[at].guest != NO_GUEST)
            leave_port(guests, &unit->ports[at]);
    pthread_mutex_unlock(&guests->lock);
    for (at = 0; at < unit->port_count; at++)
        rte_vhost_driver_unregister(unit->ports[at].path);
}
