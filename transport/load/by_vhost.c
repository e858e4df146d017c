/* Not proved. As a virtual machine reaches a device of vhost-user-scsi, or one of vhost-user-blk. The data is
 * in the memory that is shared with the device. */
#include <linux/virtio_blk.h>
#include <linux/virtio_scsi.h>
#include <stdlib.h>
#include <string.h>

#include "front.h"
#include "memory.h"
#include "way.h"

/* The first queue of requests (virtio 1.2, 5.6.2 and 5.2.2). */
enum { SCSI_QUEUE = 2, BLK_QUEUE = 0 };

/* What is before and after the data of a request. */
struct frame {
    struct virtio_scsi_cmd_req request;
    struct virtio_scsi_cmd_resp response;
    struct virtio_blk_outhdr header;
    uint8_t status;
};

struct device {
    struct front *front;
    struct frame *frames; /* MOST_DEPTH of them */
    struct transfer *sent[MOST_DEPTH];
};

static void *open_device(const char *path, unsigned queue)
{
    struct device *device = calloc(1, sizeof *device);

    if (!device)
        return NULL;
    device->frames = take_memory(MOST_DEPTH * sizeof *device->frames);
    device->front = device->frames ? front_open(path, queue) : NULL;
    if (device->front)
        return device;
    free(device);
    return NULL;
}

static struct piece data_of(const struct transfer *transfer)
{
    return (struct piece){ transfer->data, transfer->count * BLOCK_LENGTH, !transfer->writes };
}

static void *open_scsi(const char *path)
{
    return open_device(path, SCSI_QUEUE);
}

/* To LUN 0 of target 0 (virtio 1.2, 5.6.6.1). The response comes before data-in. */
static int send_scsi(void *unit, struct transfer *transfer)
{
    struct device *device = unit;
    struct frame *frame = &device->frames[transfer->slot];
    const struct piece request = { &frame->request, sizeof frame->request, 0 };
    const struct piece response = { &frame->response, sizeof frame->response, 1 };
    const struct piece data = data_of(transfer);
    const struct piece pieces[] = { request, transfer->writes ? data : response,
                                    transfer->writes ? response : data };

    memset(&frame->request, 0, sizeof frame->request);
    frame->request.lun[0] = 1;
    frame->request.tag = transfer->slot;
    put_cdb(frame->request.cdb, transfer);
    device->sent[transfer->slot] = transfer;
    front_offer(device->front, transfer->slot, pieces, 3);
    return 0;
}

static void end_scsi(void *context, unsigned slot)
{
    struct device *device = context;
    const struct virtio_scsi_cmd_resp *response = &device->frames[slot].response;
    struct transfer *transfer = device->sent[slot];

    transfer->done(transfer, response->response == VIRTIO_SCSI_S_OK && response->status == 0);
}

static int serve_scsi(void *unit)
{
    struct device *device = unit;

    return front_serve(device->front, end_scsi, device);
}

static void *open_blk(const char *path)
{
    return open_device(path, BLK_QUEUE);
}

/* Virtio 1.2, 5.2.6. Sectors have 512 bytes. */
static int send_blk(void *unit, struct transfer *transfer)
{
    struct device *device = unit;
    struct frame *frame = &device->frames[transfer->slot];
    const struct piece pieces[] = { { &frame->header, sizeof frame->header, 0 }, data_of(transfer),
                                    { &frame->status, sizeof frame->status, 1 } };

    frame->header.type = transfer->writes ? VIRTIO_BLK_T_OUT : VIRTIO_BLK_T_IN;
    frame->header.ioprio = 0;
    frame->header.sector = transfer->block;
    frame->status = VIRTIO_BLK_S_IOERR;
    device->sent[transfer->slot] = transfer;
    front_offer(device->front, transfer->slot, pieces, 3);
    return 0;
}

static void end_blk(void *context, unsigned slot)
{
    struct device *device = context;
    struct transfer *transfer = device->sent[slot];

    transfer->done(transfer, device->frames[slot].status == VIRTIO_BLK_S_OK);
}

static int serve_blk(void *unit)
{
    struct device *device = unit;

    return front_serve(device->front, end_blk, device);
}

const struct way by_vhost_scsi = { "scsi:", MOST_DEPTH, open_scsi, send_scsi, serve_scsi };
const struct way by_vhost_blk = { "blk:", MOST_DEPTH, open_blk, send_blk, serve_blk };
