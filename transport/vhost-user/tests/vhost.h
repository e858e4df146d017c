/* Not proved. Stands for librte_vhost: a test says what a front end has set up, and calls what guests.c has
 * registered. */
#ifndef VHOST_H
#define VHOST_H

#include <rte_vhost.h>

enum { VHOST_GUESTS = 4, VHOST_QUEUES = 8 };

struct vhost {
    /* What each front end has set up. */
    struct rte_vhost_vring rings[VHOST_GUESTS][VHOST_QUEUES];
    uint16_t bases[VHOST_GUESTS][VHOST_QUEUES][2]; /* the indexes of the available and of the used ring */
    uint64_t negotiated[VHOST_GUESTS];
    const char *paths[VHOST_GUESTS];
    struct rte_vhost_mem_region region; /* the memory of each of them */
    int call_result;
    /* What was asked. */
    uint64_t features;
    unsigned calls, tables, sockets;
    const struct rte_vhost_device_ops *device;
    const struct rte_vhost_user_extern_ops *messages;
};

extern struct vhost vhost;

#endif
