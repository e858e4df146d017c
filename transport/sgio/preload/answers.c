/* Not proved. Answers the ioctls of an sg node that the tools use, except SG_IO and SG_SCSI_RESET.
 * Linux's sg driver gives the same answers for host 0, channel 0, target 0, logical unit 0. It does not
 * know other ioctls. */
#include "node.h"

#include <errno.h>
#include <linux/fs.h>
#include <scsi/scsi.h>
#include <string.h>

#include "../message.h"

enum {
    SG_VERSION = 30536,         /* 3.5.36, as in Linux since 2.6.27: the header of version 3 */
    TICKS_A_MINUTE = 6000       /* of 10 ms each, the unit of SG_GET_TIMEOUT */
};

struct identity_and_lun {
    uint32_t device, host;
};

static int put_number(void *argument, int number)
{
    memcpy(argument, &number, sizeof number);
    return 0;
}

/* A number that is set, if it is not below 0. It changes nothing: SG_IO has a timeout of its own, and
 * there is no reserve buffer. */
static int take_number(const void *argument)
{
    int number;

    memcpy(&number, argument, sizeof number);
    return number < 0 ? -EINVAL : 0;
}

int answer_ioctl(unsigned long request, void *argument)
{
    static const struct identity_and_lun numbers;
    static const struct sg_scsi_id all_numbers = { .h_cmd_per_lun = 1, .d_queue_depth = 1 };

    if (request == SG_GET_TIMEOUT)
        return TICKS_A_MINUTE;
    if (!argument)
        return -EFAULT;
    switch (request) {
    case SG_GET_VERSION_NUM: return put_number(argument, SG_VERSION);
    case SG_GET_RESERVED_SIZE: return put_number(argument, MOST_DATA_OUT);
    case BLKSECTGET: return put_number(argument, MOST_DATA_OUT); /* bytes, as with Linux's sg */
    case SG_GET_SG_TABLESIZE: return put_number(argument, MOST_DATA_OUT / 4096);
    case SG_GET_COMMAND_Q: return put_number(argument, 0);
    case SG_EMULATED_HOST: return put_number(argument, 1);
    case SCSI_IOCTL_GET_BUS_NUMBER: return put_number(argument, 0);
    case SG_SET_TIMEOUT:
    case SG_SET_RESERVED_SIZE:
    case SG_SET_COMMAND_Q: return take_number(argument);
    case SCSI_IOCTL_GET_IDLUN: memcpy(argument, &numbers, sizeof numbers); return 0;
    case SG_GET_SCSI_ID: memcpy(argument, &all_numbers, sizeof all_numbers); return 0;
    default: return -ENOTTY;
    }
}
