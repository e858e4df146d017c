/* Not proved. The connections of guests, by DPDK's librte_vhost. It calls this file in a thread of its own,
 * and `serve` executes commands in another one. Both take the lock of `struct guests`. */
#ifndef GUESTS_H
#define GUESTS_H

#include <pthread.h>

#include "unit.h"

struct guests {
    pthread_mutex_t lock; /* of everything here, and of the unit */
    struct unit *unit;
    int kicks;            /* an epoll of the queues' eventfds, readable if there is something to do */
    int news;             /* an eventfd in it: a queue has begun to run */
};

/* Makes the epoll. Returns 0 if that fails. */
int begin_guests(struct guests *guests, struct unit *unit);

/* Listens at the sockets of the unit's ports. Returns null, or the path of a socket for which that fails. */
const char *listen_for_guests(struct guests *guests);

/* Notes which queues have something to do, without waiting. */
void take_kicks(struct guests *guests);

/* Tells guests of used buffers. Returns 0 if some of them could not be told now. */
int call_guests(struct guests *guests);

/* Ends all connections, and removes the sockets. */
void end_guests(struct guests *guests);

#endif
