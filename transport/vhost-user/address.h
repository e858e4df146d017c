/* Not proved. What the field LUN of a request addresses (virtio 1.2, 5.6.6.1). */
#ifndef ADDRESS_H
#define ADDRESS_H

#include <stdint.h>

enum address {
    ADDRESS_DISK,       /* LUN 0 of target 0 */
    ADDRESS_OTHER_UNIT, /* another logical unit of target 0, which does not exist */
    ADDRESS_NO_TARGET   /* another target, or no form that virtio has */
};

/* Reads the 8 bytes of the field. */
enum address read_address(const uint8_t *lun);

#endif
