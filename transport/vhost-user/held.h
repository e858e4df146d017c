/* Not proved. Commands that never get a reply, because a fault is armed (MDL_NO_REPLY). Their descriptors
 * stay with the device until something ends them. */
#ifndef HELD_H
#define HELD_H

#include "unit.h"

/* Stand for each tag, and for each port. */
#define ANY_TAG NULL
#define ANY_PORT NULL

/* Holds a command. Returns 0 if the guest has given its descriptors before, or if there is no memory. */
int hold(struct unit *unit, struct port *port, struct queue *queue, uint16_t head, uint64_t tag);

/* Ends held commands of a port with a tag, by a response of VIRTIO_SCSI_S_*. */
void end_held(struct unit *unit, const struct port *port, const uint64_t *tag, uint8_t response);

/* Ends held commands of ports in a mask of initiators. */
void end_held_of(struct unit *unit, uint64_t initiators, uint8_t response);

/* Ends held commands of one queue. */
void end_held_in(struct unit *unit, const struct queue *queue, uint8_t response);

/* Answers the commands of a port that ended while it was paused. */
void answer_ended(struct unit *unit, const struct port *port);

/* Forgets held commands of a queue that has stopped, or of all queues of a port. They get no response. */
void forget_held(struct unit *unit, const struct port *port, const struct queue *queue);

#endif
