/* Not proved. Takes requests of all ports from their queues, and answers them. */
#ifndef REQUESTS_H
#define REQUESTS_H

#include "unit.h"

/* Serves the pending queues of all ports that are not paused, each a while, and flushes the disk's file once
 * if answers wait for it. Returns 1 if some queue may have more. */
int serve_round(struct unit *unit);

/* Serves what is in the request queues now. So each request that a guest has made available before a task
 * management function ends before it. */
void serve_all_requests(struct unit *unit);

/* Flushes the disk's file, and lets the answers out that wait for it. */
void end_waiting(struct unit *unit);

/* Returns 1 if a queue may be looked at now. */
int may_use(const struct port *port, const struct queue *queue);

/* Takes the next chain of a queue. Returns 0 if there is none. If the guest has broken the ring, the queue
 * stops. */
int take_from(struct port *port, struct queue *queue, uint16_t *head);

/* Says on standard error what a guest does wrong, once for a connection. */
void report(struct port *port, const struct queue *queue, enum guest_fault fault);

#endif
