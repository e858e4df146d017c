/* Not proved. The memory and the driver of a guest, for tests of the device. The memory has three regions, of
 * which the first two are neighbours for the guest, and none are here. */
#ifndef DRIVER_H
#define DRIVER_H

#include <stdint.h>
#include <stdio.h>
#include <stdlib.h>

#include <linux/virtio_scsi.h>

#include "unit.h"

#define WANT(condition) \
    do { \
        if (!(condition)) { \
            fprintf(stderr, "%s, line %d: not so: %s\n", __FILE__, __LINE__, #condition); \
            exit(1); \
        } \
        checks++; \
    } while (0)

extern unsigned long checks;

enum {
    QUEUE_SIZE = 32,
    REGION_0 = 0x10000, REGION_0_LENGTH = 0x10000, /* has the rings */
    REGION_1 = 0x20000, REGION_1_LENGTH = 0x8000,
    HOLE = 0x28000,
    REGION_2 = 0x100000, REGION_2_LENGTH = 0x10000,
    REQUEST = REGION_0 + 0x8000,  /* where a request's header is */
    RESPONSE = REGION_0 + 0x9000, /* where its response is */
    REQUESTS = 2,                 /* the first request queue */
    QUEUES = 4
};

/* Two ports, each with a guest whose queues run. The stub is reset, too. */
extern struct unit unit;
void begin_guests_of_two_ports(void);
void end_guests_of_two_ports(void);

/* A place in the memory of the guest of a port. */
uint8_t *at(unsigned port, uint64_t address);

/* A descriptor of a chain: IN, OUT or INDIRECT. */
struct element {
    uint64_t address;
    uint32_t length;
    uint16_t flags;
};
enum { OUT = 0, IN = VRING_DESC_F_WRITE, INDIRECT = VRING_DESC_F_INDIRECT };

/* Writes descriptors to a table, and chains each to the next, from index `first` on. */
void put_table(struct vring_desc *table, unsigned first, const struct element *elements, unsigned count);

/* Makes a chain of the guest's table available, which begins at the descriptor `first`. */
void offer(unsigned port, unsigned queue, uint16_t first);

/* Puts a chain into the table and makes it available. */
void offer_chain(unsigned port, unsigned queue, uint16_t first, const struct element *elements,
                 unsigned count);

/* Returns 1 if the device has given back one more chain, with its first descriptor and the length. */
int take_used(unsigned port, unsigned queue, uint32_t *first, uint32_t *length);

/* Writes the header of a request for LUN 0 with a CDB of so many bytes, and zeros after it. */
void put_request(unsigned port, uint64_t tag, const uint8_t *cdb, unsigned length);

/* Offers this request with data, serves, and returns the response. The device wrote `length` bytes. */
const struct virtio_scsi_cmd_resp *ask(unsigned port, const struct element *data, unsigned count,
                                       uint32_t length);

/* Looks at all pending queues until there is nothing more to do. */
void serve_all(void);

void test_commands(void);
void test_broken_guests(void);
void test_functions(void);
void test_front_ends(void);
void test_random_guests(unsigned rounds);

#endif
