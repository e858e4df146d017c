/* Not proved. The requests of a request queue (virtio 1.2, 5.6.6.1). */
#ifndef COMMAND_H
#define COMMAND_H

#include <linux/virtio_scsi.h>

#include "chain.h"
#include "mehdalung.h"

struct answer {
    struct virtio_scsi_cmd_resp response;
    uint64_t tag;    /* the identifier of the command */
    uint32_t length; /* how many bytes of the device-writable part are written: the response and data-in */
};

/* What becomes of a command. */
enum fate {
    FATE_ANSWERED, /* the answer may go out */
    FATE_WAITS,    /* the answer may go out after a flush of the disk's file */
    FATE_HELD      /* the disk never replies, because a fault is armed. There is no answer. */
};

/* Returns 1 if a chain has a whole header and room for a response. */
int is_command(const struct chain *chain);

/* Executes the command of such a chain for an initiator. Data-in is in the chain then. The response is
 * only in the answer. */
enum fate execute_command(mdl_disk *disk, uint32_t initiator, const struct chain *chain,
                          struct answer *answer);

/* Makes the answer to a request that ends without a status: `response` is one of VIRTIO_SCSI_S_*. The
 * residual is all that the request may transfer. */
void end_without_status(const struct chain *chain, uint8_t response, struct answer *answer);

/* Makes the answer of a disk whose file has failed. */
void fail_for_file(mdl_disk *disk, const struct chain *chain, struct answer *answer);

#endif
