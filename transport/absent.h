/* Not proved. The replies of a target to a port, at a LUN where it has no disk for this port.
 *
 * The port gets at once what ends an initiator's scan (SAM-5, 5.11). INQUIRY reports peripheral qualifier
 * 011b, and REPORT LUNS only LUN 0. REQUEST SENSE reports LOGICAL UNIT NOT SUPPORTED, and every other
 * command ends with it. */
#ifndef ABSENT_H
#define ABSENT_H

#include "mehdalung.h"

/* The longest data-in of such a command, INQUIRY data. */
enum { MOST_ABSENT_DATA_IN = 36 };

/* Executes a command of at least 12 bytes. Data-in goes to MOST_ABSENT_DATA_IN bytes. */
void execute_absent(const uint8_t *cdb, uint8_t *data_in, mdl_reply *reply);

#endif
