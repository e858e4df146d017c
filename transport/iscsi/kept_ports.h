/* Keeps the numbers of initiator ports in a text file beside the file of a disk, as FILE.ports. A target
 * that is started again finds there which port is which initiator.
 *
 *     mehdalung ports 1
 *     0 iqn.2026-11.org.example:initiator-0,i,0x804d44480000
 *     2 iqn.2026-11.org.example:initiator-7,i,0x804d44480007
 *     end
 *
 * A line has a number and the port that has it, so a base disk has up to 8 lines, and an extended disk up to
 * 64. The port that was used last when the file was written is in the last line. The file is written whole,
 * to FILE.ports.new, which then takes the place of the other in one step. It has the permissions of the
 * disk's file, and its owner if that is allowed. A symbolic link in the place of either is not followed. The
 * lock of the disk's file is for both. */
#ifndef KEPT_PORTS_H
#define KEPT_PORTS_H

#include "ports.h"

/* What follows the path of the disk's file. */
#define PORTS_SUFFIX ".ports"

/* Reads the ports of a disk's file into a table without ports. Without a file of ports it stays so. Returns
 * 0, or an errno. EBADMSG means that the file has something else, or is damaged. */
int read_ports(struct port_table *table, const char *disk);

/* Puts the table into the file of ports. When it returns, the table is there even after a crash. Returns
 * 0, or an errno. */
int write_ports(const struct port_table *table, const char *disk);

#endif
