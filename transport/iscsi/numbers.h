/* Which initiator of a logical unit's disk a port is: its number.
 *
 * ports.h has the rule. This file asks tgtd which ports have a session, and the disk which initiators are
 * registered. */
#ifndef NUMBERS_H
#define NUMBERS_H

#include "unit.h"

/* Beside NO_NUMBER: there is a number for the port, but it can't be kept in the file of ports. */
enum { NUMBER_NOT_KEPT = -2 };

/* The initiator that sends a command, NO_NUMBER, or NUMBER_NOT_KEPT. A port that has no number gets one. If
 * another port had it before, the new one begins as after power on: 29h/00h is pending for it, and no other
 * unit attention. If there is no number for a port, tgtd's log says so, once for each port. */
int initiator_of(struct scsi_cmd *cmd);

/* Returns 1 if the port of a session has a number, or would get one with its next command. */
int finds_number(struct scsi_lu *lu, uint64_t session);

/* Bit i is set if initiator i is registered. */
uint64_t registered_initiators(struct scsi_lu *lu);

/* Writes the port of a number to tgtd's log. */
void log_number(const struct scsi_lu *lu, int number, const struct port *port);

/* Writes to tgtd's log which ports have numbers, and what keeps each number for its port. */
tgtadm_err log_ports(struct scsi_lu *lu);

/* Gives up a number whose port never comes back. The words are "N", or "N registered": only then a
 * registration is removed, as by REGISTER AND IGNORE EXISTING KEY of that port. N is a number of the disk as
 * `log_ports` writes it. A number whose port has a session is not given up. If it is not, tgtd's log says
 * why. */
tgtadm_err forget_port(struct scsi_lu *lu, const char *words);

#endif
