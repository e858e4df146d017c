/* Not proved. Memory for data, which other programs can map, as the memory of a virtual machine. */
#ifndef MEMORY_H
#define MEMORY_H

#include <stddef.h>
#include <stdint.h>

struct memory {
    int descriptor;
    uint8_t *bytes; /* null: it is not made yet */
    size_t length, taken;
};

extern struct memory memory;

/* Takes whole pages of it, all zeros. Null if there are none. Nobody gives them back. */
void *take_memory(size_t length);

#endif
