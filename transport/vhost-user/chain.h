/* Not proved. A chain of descriptors of a split virtqueue (virtio 1.2, 2.7.5), as pieces of this process's
 * memory. What the guest writes into a descriptor is read once and then checked. */
#ifndef CHAIN_H
#define CHAIN_H

#include <stdint.h>
#include <sys/uio.h>

#include <rte_vhost.h>

/* More pieces than a chain of qemu's longest queue has, 1,024 descriptors. A descriptor is one piece in each
 * region of the guest's memory that it touches. */
enum { MOST_PIECES = 2048 };

/* Why a chain can't be used. */
enum chain_fault {
    CHAIN_IS_WHOLE,
    CHAIN_LEAVES_TABLE,  /* the index of a descriptor is outside its table */
    CHAIN_IS_TOO_LONG,   /* it has more descriptors than the table, as in a loop, or than MOST_PIECES */
    CHAIN_LEAVES_MEMORY, /* an address is outside the guest's memory */
    CHAIN_IS_UNORDERED,  /* a device-readable descriptor comes after a device-writable one */
    CHAIN_HAS_BAD_TABLE  /* an indirect table is empty, in pieces of descriptors, nested or not the last */
};

/* The device-readable pieces come first. After a fault the chain has the pieces before it. */
struct chain {
    uint64_t out_length, in_length; /* bytes that the device may read, and may write */
    unsigned out_count, count;      /* how many pieces are readable, and how many there are */
    struct iovec pieces[MOST_PIECES];
};

/* Reads the chain that begins at the descriptor `head`. */
enum chain_fault read_chain(struct rte_vhost_memory *memory, const struct rte_vhost_vring *ring,
                            uint16_t head, struct chain *chain);

/* Copies bytes of the device-readable part, from `at` on. They have to be there. */
void copy_out(const struct chain *chain, uint64_t at, void *bytes, size_t length);

/* Copies bytes to the device-writable part, from `at` on. There has to be room for them. */
void copy_in(const struct chain *chain, uint64_t at, const void *bytes, size_t length);

#endif
