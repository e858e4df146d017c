/* Not proved. See chain.h. */
#include "chain.h"

#include <endian.h>
#include <string.h>

/* A table of descriptors: the queue's own, or an indirect one in the guest's memory. */
struct table {
    const struct vring_desc *own; /* or null: it is at `address` */
    uint64_t address;
    uint32_t length;              /* the number of its descriptors */
};

/* Translates as much as is in one region. Returns null, and a length of 0, if the address is in none. */
static void *translate(struct rte_vhost_memory *memory, uint64_t address, uint64_t *length)
{
    return (void *)(uintptr_t)rte_vhost_va_from_guest_pa(memory, address, length);
}

/* The guest may write on while this reads, so the compiler must not read again later. */
static void read_once(void *to, const void *from, size_t length)
{
    memcpy(to, from, length);
    __atomic_signal_fence(__ATOMIC_SEQ_CST);
}

static int read_guest(struct rte_vhost_memory *memory, uint64_t address, void *bytes, uint64_t length)
{
    uint8_t *to = bytes;
    uint64_t part;
    const void *from;

    for (; length > 0; address += part, to += part, length -= part) {
        part = length;
        from = translate(memory, address, &part);
        if (!from)
            return 0;
        read_once(to, from, part);
    }
    return 1;
}

/* Reads a descriptor of a table, in the processor's byte order. */
static enum chain_fault read_descriptor(struct rte_vhost_memory *memory, const struct table *table,
                                        uint32_t at, struct vring_desc *descriptor)
{
    if (at >= table->length)
        return CHAIN_LEAVES_TABLE;
    if (table->own)
        read_once(descriptor, &table->own[at], sizeof *descriptor);
    else if (!read_guest(memory, table->address + at * sizeof *descriptor, descriptor, sizeof *descriptor))
        return CHAIN_LEAVES_MEMORY;
    descriptor->addr = le64toh(descriptor->addr);
    descriptor->len = le32toh(descriptor->len);
    descriptor->flags = le16toh(descriptor->flags);
    descriptor->next = le16toh(descriptor->next);
    return CHAIN_IS_WHOLE;
}

/* Adds the pieces of a descriptor that is not indirect. */
static enum chain_fault add_pieces(struct rte_vhost_memory *memory, const struct vring_desc *descriptor,
                                   struct chain *chain)
{
    int is_writable = (descriptor->flags & VRING_DESC_F_WRITE) != 0;
    uint64_t address = descriptor->addr, left = descriptor->len, part;
    void *bytes;

    if (!is_writable && chain->count > chain->out_count)
        return CHAIN_IS_UNORDERED;
    for (; left > 0; address += part, left -= part) {
        if (chain->count == MOST_PIECES)
            return CHAIN_IS_TOO_LONG;
        part = left;
        bytes = translate(memory, address, &part);
        if (!bytes)
            return CHAIN_LEAVES_MEMORY;
        chain->pieces[chain->count++] = (struct iovec){ bytes, part };
        *(is_writable ? &chain->in_length : &chain->out_length) += part;
        chain->out_count += !is_writable;
    }
    return CHAIN_IS_WHOLE;
}

/* Goes on in the table of an indirect descriptor (virtio 1.2, 2.7.5.3). Its flag WRITE means nothing. */
static enum chain_fault enter_table(const struct vring_desc *descriptor, struct table *table)
{
    uint32_t length = descriptor->len / sizeof(struct vring_desc);

    if (!table->own || descriptor->flags & VRING_DESC_F_NEXT || length == 0 ||
        descriptor->len % sizeof(struct vring_desc) != 0)
        return CHAIN_HAS_BAD_TABLE;
    *table = (struct table){ NULL, descriptor->addr, length };
    return CHAIN_IS_WHOLE;
}

enum chain_fault read_chain(struct rte_vhost_memory *memory, const struct rte_vhost_vring *ring,
                            uint16_t head, struct chain *chain)
{
    struct table table = { ring->desc, 0, ring->size };
    struct vring_desc descriptor;
    enum chain_fault fault;
    uint32_t at = head, count = 0;

    chain->out_length = chain->in_length = 0;
    chain->out_count = chain->count = 0;
    for (;;) {
        fault = read_descriptor(memory, &table, at, &descriptor);
        if (!fault && (count == table.length || count == MOST_PIECES))
            fault = CHAIN_IS_TOO_LONG;
        if (fault)
            return fault;
        count++;
        if (descriptor.flags & VRING_DESC_F_INDIRECT) {
            fault = enter_table(&descriptor, &table);
            at = count = 0;
        } else {
            fault = add_pieces(memory, &descriptor, chain);
            at = descriptor.next;
        }
        if (fault || !(descriptor.flags & (VRING_DESC_F_NEXT | VRING_DESC_F_INDIRECT)))
            return fault;
    }
}

/* The piece that has the byte `at` of those from `piece` on. `at` becomes the place in it. */
static const struct iovec *find_piece(const struct iovec *piece, uint64_t *at)
{
    for (; *at >= piece->iov_len; piece++)
        *at -= piece->iov_len;
    return piece;
}

/* How many of `length` bytes are in a piece, from its byte `at` on. */
static size_t part_of(const struct iovec *piece, uint64_t at, size_t length)
{
    return piece->iov_len - at < length ? piece->iov_len - at : length;
}

void copy_out(const struct chain *chain, uint64_t at, void *bytes, size_t length)
{
    const struct iovec *piece = length > 0 ? find_piece(chain->pieces, &at) : NULL;
    uint8_t *to = bytes;
    size_t part;

    for (; length > 0; piece++, to += part, length -= part, at = 0) {
        part = part_of(piece, at, length);
        read_once(to, (const uint8_t *)piece->iov_base + at, part);
    }
}

void copy_in(const struct chain *chain, uint64_t at, const void *bytes, size_t length)
{
    const struct iovec *piece = length > 0 ? find_piece(chain->pieces + chain->out_count, &at) : NULL;
    const uint8_t *from = bytes;
    size_t part;

    for (; length > 0; piece++, from += part, length -= part, at = 0) {
        part = part_of(piece, at, length);
        memcpy((uint8_t *)piece->iov_base + at, from, part);
    }
}
