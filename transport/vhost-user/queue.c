/* Not proved. See queue.h. */
#include "queue.h"

#include <endian.h>

enum taken take_head(struct queue *queue, uint16_t *head)
{
    const struct vring_avail *avail = queue->ring.avail;
    uint16_t size = queue->ring.size;
    uint16_t end = le16toh(__atomic_load_n(&avail->idx, __ATOMIC_ACQUIRE));

    if (end == queue->next_avail)
        return TAKEN_NONE;
    if ((uint16_t)(end - queue->next_avail) > size)
        return TAKEN_BROKEN;
    *head = le16toh(__atomic_load_n(&avail->ring[queue->next_avail % size], __ATOMIC_RELAXED));
    if (*head >= size)
        return TAKEN_BROKEN;
    queue->next_avail++;
    return TAKEN_ONE;
}

void put_used(struct queue *queue, uint16_t head, uint32_t length)
{
    struct vring_used *used = queue->ring.used;
    const struct vring_used_elem element = { htole32(head), htole32(length) };

    used->ring[queue->next_used % queue->ring.size] = element;
    queue->next_used++;
    __atomic_store_n(&used->idx, htole16(queue->next_used), __ATOMIC_RELEASE);
    queue->owes_call = 1;
}
