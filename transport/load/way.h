/* Not proved. The ways by which a program reaches a logical unit. Each sends READs and WRITEs without
 * waiting, and serves their replies. */
#ifndef WAY_H
#define WAY_H

#include <stdint.h>

enum { MOST_DEPTH = 16, BLOCK_LENGTH = 512, CDB_LENGTH = 10 };

/* A READ or a WRITE. It has to stay until `done` is called. */
struct transfer {
    int writes;
    uint32_t block, count; /* its first block, and how many */
    uint8_t *data;         /* of take_memory */
    unsigned slot;         /* below MOST_DEPTH: no other transfer under way has it */
    void (*done)(struct transfer *transfer, int is_good);
    void *context;
};

struct way {
    const char *scheme; /* its addresses begin with it */
    unsigned depth;     /* the most transfers under way */
    /* Opens a logical unit at what follows the scheme. Null if that fails. */
    void *(*open)(const char *address);
    /* Sends a transfer. Returns 1 if that fails. */
    int (*send)(void *unit, struct transfer *transfer);
    /* Waits until something can be sent or received, does it, and calls `done` for each reply that has come.
     * Returns 1 if none can come any more. */
    int (*serve)(void *unit);
};

extern const struct way by_iscsi, by_node, by_vhost_scsi, by_vhost_blk;

/* The CDB of a transfer: READ(10) or WRITE(10). */
static inline void put_cdb(uint8_t *cdb, const struct transfer *transfer)
{
    cdb[0] = transfer->writes ? 0x2A : 0x28;
    cdb[1] = cdb[6] = cdb[9] = 0;
    cdb[2] = (uint8_t)(transfer->block >> 24);
    cdb[3] = (uint8_t)(transfer->block >> 16);
    cdb[4] = (uint8_t)(transfer->block >> 8);
    cdb[5] = (uint8_t)transfer->block;
    cdb[7] = (uint8_t)(transfer->count >> 8);
    cdb[8] = (uint8_t)transfer->count;
}

#endif
