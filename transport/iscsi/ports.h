/* Maps initiator ports to the initiators of a disk.
 *
 * A base disk has eight initiators, 0 to 7, and an extended disk has 64, 0 to 63. An iSCSI target has as
 * many initiator ports as log in. An initiator port is known by its iSCSI name and its ISID. It gets a number
 * with its first command and keeps it, so that a port that comes back after a lost session finds its
 * registration. Another port may get the number once its own port has no session and no registration. While
 * there is no number for a port, the target has no disk for it. */
#ifndef PORTS_H
#define PORTS_H

#include <stdint.h>

/* The most numbers of a disk, MDL_MOST_INITIATORS. */
enum { MOST_PORT_NUMBERS = 64 };

/* A name has at most 223 bytes (RFC 7143, 4.2.7.1), and a whole TransportID at most 240. */
enum { TRANSPORT_ID_LENGTH = 256 };

/* Has room for the text of each TransportID. */
enum { PORT_TEXT_LENGTH = 1024 };

/* There is no number for a port. */
enum { NO_NUMBER = -1 };

/* A port in the form of RFC 7143, 4.4.1: NAME,i,0xISID, and a zero. A byte of the name that is no
 * printable ASCII, or is a blank or a backslash, is \xHH. */
struct port {
    char text[PORT_TEXT_LENGTH];
};

struct port_table {
    int numbers; /* how many the disk has: 0 to numbers - 1. No other number has a port. */
    struct port ports[MOST_PORT_NUMBERS];
    uint64_t last_use[MOST_PORT_NUMBERS]; /* 0: no port ever had the number, or it was given up */
    uint64_t uses;
};

/* How many ports without a number are remembered. */
enum { MOST_REFUSED = 64 };

/* The ports for which there was no number lately. Each has a line in the log. */
struct refused_ports {
    struct port ports[MOST_REFUSED]; /* an empty text is no port */
    unsigned next;                   /* the place of the next one */
};

/* Reads a TransportID as tgtd makes it: 4 bytes, the name, a zero, the text ",i,0x" and the 6 bytes of
 * the ISID. In SPC-4, 7.6.4, the ISID is in hexadecimal. It has TRANSPORT_ID_LENGTH bytes. */
void port_read(struct port *port, const char *transport_id);

/* Makes a table without ports, for a disk with so many numbers, at most MOST_PORT_NUMBERS. */
void port_clear(struct port_table *table, int numbers);

/* Reads a number of the disk, in decimal and without a needless zero, and moves `text` past its digits.
 * Returns NO_NUMBER if the text begins with no such number. */
int port_read_number(const struct port_table *table, const char **text);

/* The number of a port that has one, or NO_NUMBER. */
int port_number(const struct port_table *table, const struct port *port);

/* Notes that a number is used now. */
void port_use(struct port_table *table, int number);

/* Gives a number to a port that has none, and uses it. It is the lowest number that no port ever
 * had. If there is none, it is the number that was used the longest ago and has no bit in `kept`.
 * Returns NO_NUMBER if there is no such number either, and then leaves the table as it was. */
int port_take_number(struct port_table *table, const struct port *port, uint64_t kept);

/* Gives up a number. No port has it then, as if none ever had it. */
void port_give_up_number(struct port_table *table, int number);

/* Remembers a port for which there is no number. Returns 0 if it is remembered already. */
int port_refuse(struct refused_ports *refused, const struct port *port);

/* Forgets a port that has a number now, if it was refused. */
void port_accept(struct refused_ports *refused, const struct port *port);

#endif
