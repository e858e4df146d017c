/* Not proved. A split virtqueue (virtio 1.2, 2.7) without VIRTIO_F_EVENT_IDX. */
#ifndef QUEUE_H
#define QUEUE_H

#include <stdint.h>

#include <rte_vhost.h>

/* The queues of a virtio SCSI host device (virtio 1.2, 5.6.2). Those from 2 on carry requests. */
enum { CONTROL_QUEUE = 0, EVENT_QUEUE = 1, MOST_QUEUES = 256 };

struct queue {
    uint16_t number;
    struct rte_vhost_vring ring;    /* while it is running */
    uint16_t next_avail, next_used; /* the free-running indexes of both rings */
    int is_ready;   /* the front end has started and enabled it */
    int is_running; /* its rings and the guest's memory may be used now */
    int is_pending; /* the guest may have made requests available */
    int is_broken;  /* the guest has broken its rings, so it is not looked at until it starts again */
    int owes_call;  /* the guest has to be told of used buffers */
    unsigned held;  /* how many of its requests never got an answer, so far */
};

enum taken { TAKEN_NONE, TAKEN_ONE, TAKEN_BROKEN };

/* Takes the next available chain, and writes the index of its first descriptor. */
enum taken take_head(struct queue *queue, uint16_t *head);

/* Gives a chain back, into which `length` bytes were written from its first device-writable byte on. */
void put_used(struct queue *queue, uint16_t head, uint32_t length);

#endif
