/* Not proved. The disk, and the ports by which guests reach it. One thread at a time uses all of this: see
 * guests.h. */
#ifndef UNIT_H
#define UNIT_H

#include <stdio.h>

#include "chain.h"
#include "command.h"
#include "mehdalung.h"
#include "queue.h"

enum { NO_GUEST = -1 };

/* What a guest may do wrong. Each is reported once for a connection. The first ones are the faults of a
 * chain. */
enum guest_fault {
    GUEST_HEADER_IS_SHORT = CHAIN_HAS_BAD_TABLE + 1, /* a request has no whole header, or no room for a
                                                        response */
    GUEST_TYPE_IS_UNKNOWN,                           /* a request of the control queue has another type */
    GUEST_RING_IS_BROKEN,                            /* an index of the available ring is impossible */
    GUEST_FAULTS
};

/* A socket, which is an initiator port of the disk. */
struct port {
    const char *path;
    uint32_t initiator;
    int guest;          /* rte_vhost's number of the connection, or NO_GUEST */
    int is_paused;      /* the front end changes queues or memory now */
    int has_memory;     /* the front end has shared the guest's memory */
    int takes_events;   /* the guest has negotiated VIRTIO_SCSI_F_CHANGE */
    int owes_event;     /* the disk has grown, and the guest has not been told */
    unsigned reported;  /* a bit for each guest_fault that was reported */
    struct rte_vhost_memory *memory; /* the guest's, or null */
    unsigned queue_count;            /* no queue from this number on has run for this guest */
    struct queue queues[MOST_QUEUES];
};

/* A command that the disk never replies to. Task management, a reset or a lost nexus ends it. */
struct held {
    struct held *next;
    struct port *port;
    struct queue *queue;
    uint16_t head;
    uint64_t tag;
    int has_ended;    /* it gets `response` as soon as its queue runs again */
    uint8_t response;
};

/* A command that the disk has executed, and whose answer waits for a flush of the disk's file. */
struct waiting {
    struct port *port;
    struct queue *queue;
    uint16_t head;
    struct answer answer;
};

enum { MOST_WAITING = 64 };

struct unit {
    mdl_disk disk;
    struct port ports[MDL_MOST_INITIATORS];
    unsigned port_count;
    struct held *held;
    struct waiting waiting[MOST_WAITING];
    unsigned waiting_count;
    FILE *trace; /* gets a line for each command of a guest; or null */
};

#endif
