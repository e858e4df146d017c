/* Not proved. SG_IO with the header of sg's version 3, like drivers/scsi/sg.c of Linux. It says
 * which headers are refused, and how. It says what is written into a header when its command has
 * ended. SG_SCSI_RESET is here, too, because it reaches the disk in the same way. */
#include "node.h"

#include <errno.h>
#include <pthread.h>
#include <string.h>
#include <time.h>

#include "../connection.h"

enum {
    LEAST_CDB = 6,
    MOST_SG_CDB = 252,
    DEFAULT_TIMEOUT = 30000,  /* the block layer's, if the header has 0 */
    LONGEST_TIMEOUT = 86400000,
    HOST_TIMED_OUT = 3,       /* DID_TIME_OUT */
    DRIVER_HAS_SENSE = 8      /* DRIVER_SENSE */
};

/* A process has one buffer and one exchange at a time; the server executes one at a time anyway. */
static pthread_mutex_t exchanges = PTHREAD_MUTEX_INITIALIZER;
static uint8_t data_out[MOST_DATA_OUT], data_in[MDL_BUFFER_LENGTH];

/* Returns 1 if direction, buffer and length fit together: sg_is_valid_dxfer. */
static int is_valid_transfer(const sg_io_hdr_t *header)
{
    int has_buffer = header->dxferp != NULL, has_length = header->dxfer_len > 0;

    switch (header->dxfer_direction) {
    case SG_DXFER_NONE: return !has_buffer && !has_length;
    case SG_DXFER_FROM_DEV: return 1;
    case SG_DXFER_TO_DEV:
    case SG_DXFER_TO_FROM_DEV: return has_buffer && has_length;
    case SG_DXFER_UNKNOWN: return has_buffer == has_length;
    default: return 0;
    }
}

/* In the order of sg_new_write and sg_common_write. A node without a reserve buffer can't map one,
 * and a transfer past what one request can hold has no memory. */
static int refusal(const sg_io_hdr_t *header)
{
    if (header->interface_id != 'S')
        return ENOSYS;
    if (header->flags & SG_FLAG_MMAP_IO)
        return ENOMEM;
    if (!header->cmdp || header->cmd_len < LEAST_CDB || header->cmd_len > MOST_SG_CDB)
        return EMSGSIZE;
    if (!is_valid_transfer(header))
        return EINVAL;
    return header->dxfer_len > MOST_DATA_OUT ? ENOMEM : 0;
}

/* Copies `length` bytes at most between a flat buffer and the header's, which is one or a list of
 * parts. Returns how many. */
static uint32_t move_data(const sg_io_hdr_t *header, uint8_t *flat, uint32_t length, int is_out)
{
    const sg_iovec_t whole = { header->dxferp, header->dxfer_len };
    const sg_iovec_t *parts = header->iovec_count ? header->dxferp : &whole;
    int count = header->iovec_count ? header->iovec_count : 1, at;
    uint32_t moved = 0, part;

    if (!header->dxferp)
        return 0;
    for (at = 0; at < count && moved < length; at++) {
        part = parts[at].iov_len < length - moved ? (uint32_t)parts[at].iov_len : length - moved;
        if (is_out)
            memcpy(flat + moved, parts[at].iov_base, part);
        else
            memcpy(parts[at].iov_base, flat + moved, part);
        moved += part;
    }
    return moved;
}

/* The fields that sg clears before a command is sent. */
static void clear_results(sg_io_hdr_t *header)
{
    header->status = 0;
    header->masked_status = 0;
    header->msg_status = 0;
    header->sb_len_wr = 0;
    header->host_status = 0;
    header->driver_status = 0;
    header->resid = 0;
    header->duration = 0;
    header->info = 0;
}

/* As sg_new_read: sense data as far as the buffer has room. */
static void put_sense(sg_io_hdr_t *header, const struct reply_header *reply)
{
    uint8_t length = reply->sense_length;

    if (length == 0 || header->mx_sb_len == 0 || !header->sbp)
        return;
    header->sb_len_wr = length < header->mx_sb_len ? length : header->mx_sb_len;
    memcpy(header->sbp, reply->sense, header->sb_len_wr);
    header->driver_status = DRIVER_HAS_SENSE;
}

/* Writes a reply into the header. Data-in that has no room is dropped. The residual count is what is
 * left of the buffer: what data-in does not fill, or the data-out for which the CDB does not ask. */
static void put_reply(sg_io_hdr_t *header, const struct reply_header *reply)
{
    int is_out = header->dxfer_direction == SG_DXFER_TO_DEV;
    uint32_t length = is_out ? reply->data_out_length : reply->data_in_length;

    header->status = reply->status;
    header->masked_status = reply->status >> 1 & 0x1F;
    put_sense(header, reply);
    length = length < header->dxfer_len ? length : header->dxfer_len;
    if (!is_out)
        move_data(header, data_in, length, 0);
    header->resid = (int)(header->dxfer_len - length);
    if (header->masked_status || header->driver_status)
        header->info |= SG_INFO_CHECK;
}

static void put_timed_out(sg_io_hdr_t *header)
{
    header->host_status = HOST_TIMED_OUT;
    header->resid = (int)header->dxfer_len;
    header->info |= SG_INFO_CHECK;
}

static int timeout_of(const sg_io_hdr_t *header)
{
    if (header->timeout == 0)
        return DEFAULT_TIMEOUT;
    return header->timeout < LONGEST_TIMEOUT ? (int)header->timeout : LONGEST_TIMEOUT;
}

static unsigned milliseconds_since(const struct timespec *start)
{
    struct timespec now;

    clock_gettime(CLOCK_MONOTONIC, &now);
    return (unsigned)((now.tv_sec - start->tv_sec) * 1000 +
                      (now.tv_nsec - start->tv_nsec) / 1000000);
}

/* Both ways but TO_DEV are a read for sg, whatever the CDB is. */
static int execute(int descriptor, sg_io_hdr_t *header, uint8_t initiator)
{
    struct exchange exchange;
    struct timespec start;
    int error;

    clock_gettime(CLOCK_MONOTONIC, &start);
    clear_results(header);
    memset(&exchange, 0, sizeof exchange);
    exchange.initiator = initiator;
    exchange.cdb = header->cmdp;
    exchange.cdb_length = header->cmd_len;
    if (header->dxfer_direction == SG_DXFER_TO_DEV) {
        exchange.data_out = header->iovec_count ? data_out : header->dxferp;
        exchange.data_out_length =
            header->iovec_count ? move_data(header, data_out, header->dxfer_len, 1)
                                : header->dxfer_len;
    }
    exchange.data_in = data_in;
    exchange.timeout = timeout_of(header);
    error = exchange_command(descriptor, &exchange);
    header->duration = milliseconds_since(&start);
    if (error == ETIMEDOUT) {
        put_timed_out(header);
        return 0;
    }
    if (!error && exchange.reply.result == MDL_NO_INITIATOR)
        return EINVAL;
    if (error || exchange.reply.result != MDL_OK)
        return ENODEV;
    put_reply(header, &exchange.reply);
    return 0;
}

int execute_sg_io(int descriptor, sg_io_hdr_t *header)
{
    int initiator = initiator_of_process(), error;

    if (!header)
        return -EFAULT;
    error = refusal(header);
    if (error || initiator < 0)
        return error ? -error : -EINVAL;
    pthread_mutex_lock(&exchanges);
    error = execute(descriptor, header, (uint8_t)initiator);
    pthread_mutex_unlock(&exchanges);
    return -error;
}

/* Each disk has the initiators of a base disk. */
int find_initiator(int descriptor, int initiator)
{
    struct reply_header reply;
    int error;

    if (initiator < (int)MDL_INITIATORS)
        return 0;
    pthread_mutex_lock(&exchanges);
    error = exchange_question(descriptor, (uint8_t)initiator, DEFAULT_TIMEOUT, &reply);
    pthread_mutex_unlock(&exchanges);
    if (error)
        return -ENXIO;
    return reply.result == MDL_OK ? 0 : -EINVAL;
}

/* The happening that a reset asks for, or -1. The disk is the only logical unit of its target, bus and
 * host. */
static int kind_of_reset(int number)
{
    switch (number & ~SG_SCSI_RESET_NO_ESCALATE) {
    case SG_SCSI_RESET_DEVICE: return MDL_LOGICAL_UNIT_RESET;
    case SG_SCSI_RESET_TARGET:
    case SG_SCSI_RESET_BUS:
    case SG_SCSI_RESET_HOST: return MDL_TARGET_RESET;
    default: return -1;
    }
}

/* As scsi_ioctl_reset of Linux. No reset fails, so none has to escalate. */
int reset_node(int descriptor, const void *argument)
{
    mdl_happening reset = { 0 };
    struct reply_header reply;
    int number, kind, error;

    if (!argument)
        return -EFAULT;
    memcpy(&number, argument, sizeof number);
    if ((number & ~SG_SCSI_RESET_NO_ESCALATE) == SG_SCSI_RESET_NOTHING)
        return 0;
    kind = kind_of_reset(number);
    if (kind < 0)
        return -EIO;
    reset.kind = (uint32_t)kind;
    pthread_mutex_lock(&exchanges);
    error = exchange_happening(descriptor, &reset, DEFAULT_TIMEOUT, &reply);
    pthread_mutex_unlock(&exchanges);
    if (error)
        return error == ETIMEDOUT ? -EIO : -ENODEV;
    return reply.result == MDL_OK ? 0 : -EIO;
}
