/* Not proved. What else happens to the disk, and what guests learn of it by themselves. */
#ifndef EVENTS_H
#define EVENTS_H

#include "unit.h"

/* To be called after something has happened to the disk: it ends held commands (SAM-5, 6.3), and growth is an
 * event for each guest. */
void note_happening(struct unit *unit, const mdl_happening *happening);

/* Gives a port's event to its guest, as soon as its event queue has a buffer (virtio 1.2, 5.6.6.3). */
void deliver_event(struct port *port);

#endif
