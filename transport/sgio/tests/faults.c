/* Not proved. Faults that are armed over the socket, and what a program of SG_IO gets then: under
 * LD_PRELOAD, on the path of $disk. Statuses, sense data and data-in of commands that a fault meets
 * pass through. A command without a reply ends with its timeout, and the next one has its reply. If
 * something is not so, it prints a line and has status 1. */
#include <errno.h>
#include <fcntl.h>
#include <poll.h>
#include <scsi/sg.h>
#include <stdio.h>
#include <stdlib.h>
#include <string.h>
#include <sys/ioctl.h>
#include <sys/socket.h>
#include <unistd.h>

#include "connection.h"

enum { GUARD = 0xEE, TIMEOUT = 10000, SHORT_TIMEOUT = 200, LONGEST = 60, BLOCK = MDL_BLOCK_LENGTH };

static uint8_t test_unit_ready[6], read_5[10] = { 0x28, [5] = 5, [8] = 1 };
static uint8_t write_5[10] = { 0x2A, [5] = 5, [8] = 1 };
static uint8_t buffer[BLOCK + 64], sense[64];
static int node, server;

#define WANT(condition) \
    do { \
        if (!(condition)) { \
            fprintf(stderr, "faults, line %d: not so: %s\n", __LINE__, #condition); \
            exit(1); \
        } \
    } while (0)

static mdl_error happen(const mdl_happening *happening)
{
    struct reply_header reply;

    WANT(exchange_happening(server, happening, TIMEOUT, &reply) == 0);
    WANT(reply.status == 0 && reply.sense_length == 0 && reply.data_in_length == 0);
    return (mdl_error)reply.result;
}

/* Arms a fault alone: all others are taken away. */
static void arm(mdl_fault fault)
{
    const mdl_happening heal = { .kind = MDL_DISARM_ALL };
    mdl_happening arming = { .kind = MDL_ARM };

    arming.fault = fault;
    WANT(happen(&heal) == MDL_OK && happen(&arming) == MDL_OK);
}

/* The message has each field of the record at its own bytes, the highest byte first. */
static void has_each_byte(void)
{
    static const uint8_t bytes[HAPPENING_LENGTH] = {
        0x01, 0x02, 0x03, 0x04, 0x05, 0x06, 0x07, 0x08,
        0x11, 0x12, 0x13, 0x14, 0x15, 0x16, 0x17, 0x18,
        0x21, 0x22, 0x23, 0x24, 0x25, 0x26, 0x27, 0x28, 0x31, 0x32, 0x33,
        0x41, 0x42, 0x43, 0x44, 0x45, 0x46, 0x47, 0x48,
        0x51, 0x52, 0x53, 0x54, 0x55, 0x56, 0x57, 0x58,
        0x61, 0x62, 0x63, 0x64, 0x71, 0x72, 0x73, 0x74, 0x81, 0x82, 0x83, 0x84,
        0x91, 0x92, 0xA1, 0xA2, 0xB1, 0xB2, 0xB3, 0xB4, 0xB5, 0xB6
    };
    const mdl_happening record = {
        .kind = 0x01020304, .initiator = 0x05060708, .initiators = 0x1112131415161718,
        .blocks = 0x2122232425262728, .asc = 0x31, .ascq = 0x32, .number = 0x33,
        .fault = { .initiators = 0x4142434445464748, .lba = 0x5152535455565758, .count = 0x61626364,
                   .outcome = 0x71727374, .blocks = 0x81828384, .skip = 0x9192, .times = 0xA1A2,
                   .has_code = 0xB1, .code = 0xB2, .healed_by_writes = 0xB3, .key = 0xB4,
                   .asc = 0xB5, .ascq = 0xB6 }
    };
    uint8_t put[HAPPENING_LENGTH + 1];
    mdl_happening got;

    memset(put, GUARD, sizeof put);
    put_happening(put, &record);
    WANT(memcmp(put, bytes, sizeof bytes) == 0 && put[HAPPENING_LENGTH] == GUARD);
    get_happening(bytes, &got);
    put_happening(put, &got);
    WANT(memcmp(put, bytes, sizeof bytes) == 0);
}

/* Sends a command by SG_IO. Returns its header. */
static sg_io_hdr_t sent(uint8_t *cdb, int direction, unsigned timeout)
{
    const int has_block = direction != SG_DXFER_NONE;
    sg_io_hdr_t header;

    memset(&header, 0, sizeof header);
    memset(buffer + BLOCK, GUARD, sizeof buffer - BLOCK);
    memset(sense, GUARD, sizeof sense);
    header.interface_id = 'S';
    header.dxfer_direction = direction;
    header.cmd_len = has_block ? 10 : 6;
    header.mx_sb_len = sizeof sense;
    header.dxfer_len = has_block ? BLOCK : 0;
    header.dxferp = has_block ? buffer : NULL;
    header.cmdp = cdb;
    header.sbp = sense;
    header.timeout = timeout;
    WANT(ioctl(node, SG_IO, &header) == 0 && buffer[BLOCK] == GUARD);
    return header;
}

static void expect_ready(void)
{
    const sg_io_hdr_t header = sent(test_unit_ready, SG_DXFER_NONE, TIMEOUT);

    WANT(header.status == 0 && header.host_status == 0 && header.info == SG_INFO_OK);
}

/* The block's bytes are all one byte. */
static void expect_block(uint8_t byte)
{
    const sg_io_hdr_t header = sent(read_5, SG_DXFER_FROM_DEV, TIMEOUT);
    size_t at;

    WANT(header.status == 0 && header.resid == 0);
    for (at = 0; at < BLOCK; at++)
        WANT(buffer[at] == byte);
}

static sg_io_hdr_t write_block(uint8_t byte, unsigned timeout)
{
    memset(buffer, byte, BLOCK);
    return sent(write_5, SG_DXFER_TO_DEV, timeout);
}

/* A command that the disk stops on arrival has its status and nothing more (SAM-5, 5.3). */
static void passes_statuses(void)
{
    static const struct { uint32_t outcome; uint8_t status, masked; } rows[] = {
        { MDL_ARRIVAL_BUSY, 0x08, 0x04 }, { MDL_ARRIVAL_TASK_SET_FULL, 0x28, 0x14 },
        { MDL_ARRIVAL_RESERVATION_CONFLICT, 0x18, 0x0C },
    };
    sg_io_hdr_t header;
    size_t at;

    for (at = 0; at < sizeof rows / sizeof rows[0]; at++) {
        arm((mdl_fault){ .initiators = 1, .outcome = rows[at].outcome, .times = 1 });
        memset(buffer, GUARD, BLOCK);
        header = sent(read_5, SG_DXFER_FROM_DEV, TIMEOUT);
        WANT(header.status == rows[at].status && header.masked_status == rows[at].masked);
        WANT(header.host_status == 0 && header.driver_status == 0 && header.sb_len_wr == 0);
        WANT(header.info == SG_INFO_CHECK && header.resid == BLOCK && buffer[0] == GUARD);
        expect_ready();
    }
}

/* A medium error has the address of the bad block, and a write heals the block. A recovered error
 * comes with the block (SPC-4, 4.5.3; SBC-3, 4.18). */
static void passes_sense_and_data(void)
{
    sg_io_hdr_t header = write_block(0x55, TIMEOUT);

    WANT(header.status == 0);
    arm((mdl_fault){ .initiators = 1, .outcome = MDL_MEDIUM_CHECK_CONDITION, .lba = 5, .count = 1,
                     .healed_by_writes = 1, .key = 3, .asc = 0x11 });
    memset(buffer, GUARD, BLOCK);
    header = sent(read_5, SG_DXFER_FROM_DEV, TIMEOUT);
    WANT(header.status == 2 && header.resid == BLOCK && buffer[0] == GUARD);
    WANT(sense[0] == 0xF0 && sense[2] == 3 && sense[6] == 5 && sense[12] == 0x11 && sense[13] == 0);
    header = write_block(0x66, TIMEOUT);
    WANT(header.status == 0);
    expect_block(0x66);

    arm((mdl_fault){ .initiators = 1, .outcome = MDL_AFTER_CHECK_CONDITION, .has_code = 1,
                     .code = 0x28, .times = 1, .key = 1, .asc = 0x17, .ascq = 0x02 });
    memset(buffer, GUARD, BLOCK);
    header = sent(read_5, SG_DXFER_FROM_DEV, TIMEOUT);
    WANT(header.status == 2 && header.sb_len_wr == 18 && header.driver_status == 8);
    WANT(sense[0] == 0x70 && sense[2] == 1 && sense[12] == 0x17 && sense[13] == 2);
    WANT(header.resid == 0 && buffer[0] == 0x66 && buffer[BLOCK - 1] == 0x66);
    expect_block(0x66);
}

/* Only the first bytes of a block arrive, with GOOD. The residual counts the others. */
static void tells_the_residual(void)
{
    sg_io_hdr_t header;

    arm((mdl_fault){ .initiators = 1, .outcome = MDL_AFTER_SHORT_DATA_IN, .blocks = 100,
                     .times = 1 });
    memset(buffer, GUARD, BLOCK);
    header = sent(read_5, SG_DXFER_FROM_DEV, TIMEOUT);
    WANT(header.status == 0 && header.host_status == 0 && header.driver_status == 0);
    WANT(header.resid == BLOCK - 100 && header.sb_len_wr == 0);
    WANT(buffer[0] == 0x66 && buffer[99] == 0x66 && buffer[100] == GUARD);
    expect_block(0x66);
}

static void expect_timed_out(const sg_io_hdr_t *header)
{
    WANT(header->host_status == 3 && header->status == 0 && header->masked_status == 0);
    WANT(header->driver_status == 0 && header->sb_len_wr == 0 && header->info == SG_INFO_CHECK);
    WANT(header->duration >= SHORT_TIMEOUT && header->duration < 20 * SHORT_TIMEOUT);
    WANT(header->resid == (int)header->dxfer_len && sense[0] == GUARD);
}

/* A silent command ends with its timeout. On arrival it was not executed, and afterwards it was. The
 * descriptor goes on. */
static void times_out(void)
{
    sg_io_hdr_t header;

    arm((mdl_fault){ .initiators = 1, .outcome = MDL_ARRIVAL_NO_REPLY, .times = 2 });
    header = write_block(0x77, SHORT_TIMEOUT);
    expect_timed_out(&header);
    header = sent(test_unit_ready, SG_DXFER_NONE, SHORT_TIMEOUT);
    expect_timed_out(&header);
    expect_ready();
    expect_block(0x66);
    arm((mdl_fault){ .initiators = 1, .outcome = MDL_AFTER_NO_REPLY, .times = 2 });
    header = write_block(0x88, SHORT_TIMEOUT);
    expect_timed_out(&header);
    memset(buffer, GUARD, BLOCK);
    header = sent(read_5, SG_DXFER_FROM_DEV, SHORT_TIMEOUT);
    expect_timed_out(&header);
    WANT(buffer[0] == GUARD);
    expect_block(0x88);
}

/* No command ends before its timeout, wherever in a millisecond it begins. */
static void times_out_never_early(void)
{
    const mdl_happening heal = { .kind = MDL_DISARM_ALL };
    sg_io_hdr_t header;

    arm((mdl_fault){ .initiators = 1, .outcome = MDL_ARRIVAL_NO_REPLY });
    for (unsigned round = 0; round < 500; round++) {
        header = write_block(0x77, 2);
        WANT(header.host_status == 3 && header.duration >= 2);
    }
    WANT(happen(&heal) == MDL_OK);
    expect_ready();
}

/* At the socket nothing comes for a silent command. The next reply has the tag of its request. */
static void sends_nothing(void)
{
    static const uint8_t requests[2 * 14] = { COMMAND, 0, 0xA1, 6, [14] = COMMAND, 0, 0xA2, 6 };
    uint8_t bytes[REPLY_HEADER_LENGTH];
    struct pollfd ready = { server, POLLIN, 0 };

    arm((mdl_fault){ .initiators = 1, .outcome = MDL_ARRIVAL_NO_REPLY, .times = 1 });
    WANT(send(server, requests, 14, 0) == 14 && poll(&ready, 1, SHORT_TIMEOUT) == 0);
    WANT(send(server, requests + 14, 14, 0) == 14);
    WANT(recv(server, bytes, sizeof bytes, MSG_WAITALL) == (ssize_t)sizeof bytes);
    WANT(bytes[0] == MDL_OK && bytes[1] == MDL_GOOD && bytes[2] == 0xA2);
    WANT(poll(&ready, 1, 0) == 0);
}

int main(void)
{
    const char *path = getenv("disk"), *socket = getenv("MDL_SOCKET");

    WANT(path && socket);
    alarm(LONGEST);
    has_each_byte();
    server = connect_to(socket, 0);
    node = open(path, O_RDWR | O_NONBLOCK);
    WANT(server >= 0 && node >= 0);
    WANT(sent(test_unit_ready, SG_DXFER_NONE, TIMEOUT).status == 2);
    expect_ready();
    passes_statuses();
    passes_sense_and_data();
    tells_the_residual();
    times_out();
    times_out_never_early();
    sends_nothing();
    expect_ready();
    return 0;
}
