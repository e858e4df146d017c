/* Not proved. A front end of vhost-user, in the place of a virtual machine. It shares the memory of memory.h,
 * and uses one split virtqueue of a device (virtio 1.2, 2.7). */
#ifndef FRONT_H
#define FRONT_H

#include <stdint.h>

enum { MOST_PIECES = 3 };

/* A piece of a chain, in the shared memory. Those that the device writes come last. */
struct piece {
    void *bytes;
    uint32_t length;
    int is_written;
};

struct front;

/* Connects to a device, and starts its queue of this number. Null if that fails, with a text on standard
 * error. */
struct front *front_open(const char *path, unsigned queue);

/* Offers a chain of at most MOST_PIECES pieces. No other chain that is offered has this slot, below 16. */
void front_offer(struct front *front, unsigned slot, const struct piece *pieces, unsigned count);

/* Tells the device of what was offered, and waits until a chain comes back. `used` is called with the slot of
 * each that has come back, and may offer more. Returns 1 if the device is gone, or does not answer. */
int front_serve(struct front *front, void (*used)(void *context, unsigned slot), void *context);

#endif
