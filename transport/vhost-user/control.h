/* Not proved. The requests of the control queue (virtio 1.2, 5.6.6.2). */
#ifndef CONTROL_H
#define CONTROL_H

#include "unit.h"

/* Does what a request asks for, and answers it. */
void serve_control(struct unit *unit, struct port *port, struct queue *queue, uint16_t head);

#endif
