/* Not proved. See address.h. */
#include "address.h"

enum { TARGET_FORM = 1, THE_TARGET = 0 };

/* The first two bytes of a LUN of a single level (SAM-5, 4.7.7): peripheral device addressing of bus 0, and
 * flat space addressing. */
enum { PERIPHERAL = 0x00, FLAT = 0x40 };

enum address read_address(const uint8_t *lun)
{
    if (lun[0] != TARGET_FORM || lun[1] != THE_TARGET)
        return ADDRESS_NO_TARGET;
    if ((lun[2] != PERIPHERAL && lun[2] != FLAT) || lun[3] || lun[4] || lun[5] || lun[6] || lun[7])
        return ADDRESS_OTHER_UNIT;
    return ADDRESS_DISK;
}
