/* Not proved. By SG_IO at /dev/mehdalung, as tools of sg3_utils do. This file calls functions of the shared
 * object of transport/sgio. Nobody preloads it, because then each read and write of the other ways would ask
 * first whether its descriptor is the path's. The ioctl waits for its reply, so one transfer is under way. */
#include <dlfcn.h>
#include <fcntl.h>
#include <scsi/sg.h>
#include <stdlib.h>
#include <string.h>

#include "way.h"

enum { MILLISECONDS = 10000 };

struct node {
    int descriptor;
    int (*ioctl)(int descriptor, unsigned long request, ...);
    struct transfer *sent;
};

/* Reads a function of the shared object. Returns 0 if there is none. */
static int read_function(void *object, const char *name, void *function)
{
    void *symbol = object ? dlsym(object, name) : NULL;

    memcpy(function, &symbol, sizeof symbol);
    return symbol != NULL;
}

static void *open_node(const char *path)
{
    void *object = dlopen(path, RTLD_NOW | RTLD_LOCAL);
    struct node *node = calloc(1, sizeof *node);
    int (*open_path)(const char *path, int flags, ...);

    if (node && read_function(object, "ioctl", &node->ioctl) && read_function(object, "open", &open_path)) {
        node->descriptor = open_path("/dev/mehdalung", O_RDWR);
        if (node->descriptor >= 0)
            return node;
    }
    free(node);
    return NULL;
}

static int send_transfer(void *unit, struct transfer *transfer)
{
    struct node *node = unit;

    node->sent = transfer;
    return 0;
}

static int serve(void *unit)
{
    struct node *node = unit;
    struct transfer *transfer = node->sent;
    uint8_t cdb[CDB_LENGTH], sense[32];
    sg_io_hdr_t header = { .interface_id = 'S', .cmd_len = sizeof cdb, .cmdp = cdb,
                           .mx_sb_len = sizeof sense, .sbp = sense, .timeout = MILLISECONDS,
                           .dxferp = transfer->data, .dxfer_len = transfer->count * BLOCK_LENGTH };

    header.dxfer_direction = transfer->writes ? SG_DXFER_TO_DEV : SG_DXFER_FROM_DEV;
    put_cdb(cdb, transfer);
    if (node->ioctl(node->descriptor, SG_IO, &header) || header.host_status)
        return 1;
    transfer->done(transfer, header.status == 0);
    return 0;
}

const struct way by_node = { "sg:", 1, open_node, send_transfer, serve };
