/* Not proved. Requests of request queues (virtio 1.2, 5.6.6.1): where data goes, and each field of the
 * response. */
#include <string.h>

#include "driver.h"
#include "stub.h"

enum { HEADER = sizeof(struct virtio_scsi_cmd_req), ANSWER = sizeof(struct virtio_scsi_cmd_resp) };

static const uint8_t test_unit_ready[6], read_10[10] = { 0x28, [5] = 7, [8] = 2 };
static const uint8_t write_10[10] = { 0x2A, [8] = 2 };

static void fill(uint8_t *bytes, size_t length, uint8_t seed)
{
    for (; length > 0; length--)
        *bytes++ = seed = (uint8_t)(seed * 5 + 1);
}

static int is_zero(const uint8_t *bytes, size_t length)
{
    for (; length > 0; length--)
        if (*bytes++)
            return 0;
    return 1;
}

/* The CDB comes as it is, with the port's initiator. No data is asked for. */
static void commands_arrive(void)
{
    const struct virtio_scsi_cmd_resp *response;
    unsigned port;

    for (port = 0; port < 2; port++) {
        put_request(port, 1, read_10, sizeof read_10);
        response = ask(port, NULL, 0, ANSWER);
        WANT(stub.commands == port + 1 && stub.initiator == port && stub.cdb_length == 32);
        WANT(memcmp(stub.cdb, read_10, sizeof read_10) == 0);
        WANT(is_zero(stub.cdb + sizeof read_10, 32 - sizeof read_10));
        WANT(stub.data_out_length == 0 && stub.room == 0);
        WANT(response->response == VIRTIO_SCSI_S_OK && response->status == 0 && response->resid == 0);
        WANT(response->sense_len == 0 && response->status_qualifier == 0 && is_zero(response->sense, 96));
    }
}

/* Data-in fills the pieces in their order, and the rest is the residual. A piece may lie in two regions. */
static void data_in_arrives(void)
{
    const struct element data[] = { { REGION_2, 100, IN }, { REGION_1 - 24, 200, IN },
                                    { REGION_2 + 200, 1000, IN } };
    const struct virtio_scsi_cmd_resp *response;
    uint8_t got[1300];

    put_request(0, 2, read_10, sizeof read_10);
    stub.reply.data_in_length = 1024;
    fill(stub.data_in, STUB_DATA, 3);
    response = ask(0, data, 3, ANSWER + 1024);
    WANT(stub.room == 1300 && response->response == VIRTIO_SCSI_S_OK && response->resid == 276);
    memcpy(got, at(0, REGION_2), 100);
    memcpy(got + 100, at(0, REGION_1 - 24), 24);
    memcpy(got + 124, at(0, REGION_1), 176);
    memcpy(got + 300, at(0, REGION_2 + 200), 1000);
    WANT(memcmp(got, stub.data_in, 1024) == 0 && is_zero(got + 1024, 276));
    stub.reply.data_in_length = 1300;
    WANT(ask(0, data, 3, ANSWER + 1300)->resid == 0);
    /* The CDB asks for more than there is room for: the disk executes nothing. */
    stub.reply.data_in_length = 1301;
    response = ask(0, data, 3, ANSWER);
    WANT(response->response == VIRTIO_SCSI_S_OVERRUN && response->resid == 1300 && response->status == 0);
    WANT(response->sense_len == 0);
}

/* Data-out comes in its order. What the CDB does not ask for is the residual. */
static void data_out_arrives(void)
{
    const struct element data[] = { { REGION_2 + 7, 500, OUT }, { REGION_1 - 12, 600, OUT } };
    const struct virtio_scsi_cmd_resp *response;

    put_request(0, 3, write_10, sizeof write_10);
    fill(at(0, REGION_2 + 7), 500, 9);
    fill(at(0, REGION_1 - 12), 12, 11);
    fill(at(0, REGION_1), 588, 13);
    stub.reply.data_out_length = 1024;
    response = ask(0, data, 2, ANSWER);
    WANT(stub.data_out_length == 1100 && stub.room == 0);
    WANT(memcmp(stub.data_out, at(0, REGION_2 + 7), 500) == 0);
    WANT(memcmp(stub.data_out + 500, at(0, REGION_1 - 12), 12) == 0);
    WANT(memcmp(stub.data_out + 512, at(0, REGION_1), 588) == 0);
    WANT(response->response == VIRTIO_SCSI_S_OK && response->resid == 76);
    /* The CDB asks for more than there is: the status is the disk's. */
    stub.reply.data_out_length = 1101;
    reply_sense(0x05, 0x0E, 0x03);
    response = ask(0, data, 2, ANSWER);
    WANT(response->response == VIRTIO_SCSI_S_OVERRUN && response->status == 2 && response->resid == 1100);
    WANT(response->sense_len == 18 && response->sense[12] == 0x0E && response->sense[13] == 0x03);
    /* A disk of extended-cut executes such a command over what there is. */
    stub.reply = (mdl_reply){ .data_out_length = 1536 };
    response = ask(0, data, 2, ANSWER);
    WANT(response->response == VIRTIO_SCSI_S_OVERRUN && response->status == 0 && response->resid == 0);
}

/* Data-out counts as used if the command has ended in success, or has compared it. */
static void refused_data_out_is_left(void)
{
    const struct element data = { REGION_2, 1024, OUT };
    const struct { uint8_t key, asc; uint32_t residual; } ends[] = {
        { 0x1, 0x17, 0 }, { 0x3, 0x11, 1024 }, { 0x5, 0x24, 1024 }, { 0x6, 0x29, 1024 }, { 0xE, 0x1D, 0 },
    };
    const uint8_t statuses[] = { MDL_BUSY, MDL_RESERVATION_CONFLICT, MDL_TASK_SET_FULL };
    const struct virtio_scsi_cmd_resp *response;
    unsigned it;

    put_request(0, 4, write_10, sizeof write_10);
    for (it = 0; it < sizeof ends / sizeof ends[0]; it++) {
        reset_stub();
        stub.reply.data_out_length = 1024;
        reply_sense(ends[it].key, ends[it].asc, 0);
        response = ask(0, &data, 1, ANSWER);
        WANT(response->response == VIRTIO_SCSI_S_OK && response->status == 2);
        WANT(response->sense_len == 18 && response->sense[2] == ends[it].key);
        WANT(response->sense[12] == ends[it].asc && is_zero(response->sense + 18, 78));
        WANT(response->resid == ends[it].residual);
    }
    for (it = 0; it < sizeof statuses; it++) {
        reset_stub();
        stub.reply = (mdl_reply){ .status = statuses[it], .data_out_length = 1024 };
        response = ask(0, &data, 1, ANSWER);
        WANT(response->response == VIRTIO_SCSI_S_OK && response->status == statuses[it]);
        WANT(response->sense_len == 0 && response->resid == 1024);
    }
    reset_stub();
}

/* A recovered error may come with data-in. */
static void sense_comes_with_data_in(void)
{
    const struct element data = { REGION_2, 1024, IN };
    const struct virtio_scsi_cmd_resp *response;

    put_request(0, 5, read_10, sizeof read_10);
    reply_sense(0x1, 0x17, 0x01);
    fill(stub.data_in, 1024, 77);
    stub.reply.data_in_length = 1024;
    response = ask(0, &data, 1, ANSWER + 1024);
    WANT(response->status == 2 && response->sense_len == 18 && response->resid == 0);
    WANT(memcmp(at(0, REGION_2), stub.data_in, 1024) == 0);
    reset_stub();
}

/* The disk has no bidirectional command, and VIRTIO_SCSI_F_INOUT is not offered. */
static void both_directions_fail(void)
{
    const struct element data[] = { { REGION_2, 512, OUT }, { REGION_2 + 512, 512, IN } };
    const struct virtio_scsi_cmd_resp *response;

    put_request(0, 6, read_10, sizeof read_10);
    response = ask(0, data, 2, ANSWER);
    WANT(response->response == VIRTIO_SCSI_S_FAILURE && response->resid == 1024 && stub.commands == 0);
}

/* No more data-out than the longest transfer of qemu's configuration space. */
static void too_much_data_out_fails(void)
{
    struct element table[700], indirect = { REGION_0 + 0xA000, sizeof(struct vring_desc) * 700, INDIRECT };
    struct virtio_scsi_cmd_resp *response = (struct virtio_scsi_cmd_resp *)at(0, RESPONSE);
    uint32_t first, length;
    unsigned it;

    put_request(0, 7, write_10, sizeof write_10);
    table[0] = (struct element){ REQUEST, HEADER, OUT };
    for (it = 1; it < 699; it++)
        table[it] = (struct element){ REGION_2, REGION_2_LENGTH, OUT };
    table[699] = (struct element){ RESPONSE, ANSWER, IN };
    put_table((struct vring_desc *)at(0, indirect.address), 0, table, 700);
    offer_chain(0, REQUESTS, 0, &indirect, 1);
    serve_all();
    WANT(take_used(0, REQUESTS, &first, &length) && length == ANSWER);
    WANT(response->response == VIRTIO_SCSI_S_FAILURE && response->resid == 698 * REGION_2_LENGTH);
    WANT(stub.commands == 0);
}

static const struct virtio_scsi_cmd_resp *ask_lun(const uint8_t *lun, const uint8_t *cdb, unsigned length,
                                                  const struct element *data, uint32_t used)
{
    put_request(0, 8, cdb, length);
    memcpy(at(0, REQUEST), lun, 8);
    return ask(0, data, data ? 1 : 0, used);
}

/* LUN 0 of target 0 is the disk, by both ways to write it (SAM-5, 4.7.7). */
static void addresses_are_read(void)
{
    static const uint8_t disk[][8] = { { 1, 0, 0x40, 0 }, { 1, 0, 0, 0 } };
    static const uint8_t nowhere[][8] = { { 1, 1, 0x40, 0 }, { 1, 255, 0, 0 }, { 0, 0, 0, 0 },
                                          { 0xC1, 1, 0, 0 }, { 2, 0, 0x40, 0 } };
    const struct virtio_scsi_cmd_resp *response;
    unsigned it;

    for (it = 0; it < 2; it++)
        WANT(ask_lun(disk[it], test_unit_ready, 6, NULL, ANSWER)->response == VIRTIO_SCSI_S_OK &&
             stub.commands == it + 1);
    for (it = 0; it < 5; it++) {
        response = ask_lun(nowhere[it], test_unit_ready, 6, NULL, ANSWER);
        WANT(response->response == VIRTIO_SCSI_S_BAD_TARGET && response->sense_len == 0);
    }
    WANT(stub.commands == 2);
}

/* The target answers for logical units that it does not have (SAM-5, 5.11; SPC-4, 6.6.2, 6.33 and 6.39). */
static void other_units_are_absent(void)
{
    static const uint8_t others[][8] = { { 1, 0, 0x40, 1 }, { 1, 0, 0, 5 }, { 1, 0, 0x41, 0 }, { 1, 0, 1, 0 },
                                         { 1, 0, 0x80, 0 }, { 1, 0, 0x40, 0, 0, 1 } };
    static const uint8_t inquiry[6] = { 0x12, [4] = 96 }, report_luns[12] = { 0xA0, [9] = 64 };
    static const uint8_t request_sense[6] = { 0x03, [4] = 18 }, luns[16] = { [3] = 8 };
    const struct element data = { REGION_2, 96, IN };
    const struct virtio_scsi_cmd_resp *response;
    unsigned it;

    for (it = 0; it < sizeof others / sizeof others[0]; it++) {
        response = ask_lun(others[it], inquiry, 6, &data, ANSWER + 36);
        WANT(response->status == 0 && response->resid == 60 && at(0, REGION_2)[0] == 0x7F);
        response = ask_lun(others[it], report_luns, 12, &data, ANSWER + 16);
        WANT(response->status == 0 && response->resid == 80 && memcmp(at(0, REGION_2), luns, 16) == 0);
        response = ask_lun(others[it], request_sense, 6, &data, ANSWER + 18);
        WANT(response->status == 0 && at(0, REGION_2)[2] == 0x05 && at(0, REGION_2)[12] == 0x25);
        response = ask_lun(others[it], test_unit_ready, 6, NULL, ANSWER);
        WANT(response->response == VIRTIO_SCSI_S_OK && response->status == 2 && response->sense_len == 18);
        WANT(response->sense[2] == 0x05 && response->sense[12] == 0x25 && response->sense[13] == 0);
        /* There is less room than the CDB asks for. */
        response = ask_lun(others[it], inquiry, 6, &(struct element){ REGION_2, 35, IN }, ANSWER + 35);
        WANT(response->response == VIRTIO_SCSI_S_OVERRUN && response->resid == 0);
    }
    WANT(stub.commands == 0);
}

/* An error of the library that no guest can cause. */
static void errors_fail(void)
{
    stub.error = MDL_NO_DISK;
    put_request(0, 9, test_unit_ready, 6);
    WANT(ask(0, NULL, 0, ANSWER)->response == VIRTIO_SCSI_S_FAILURE);
}

void test_commands(void)
{
    static void (*const tests[])(void) = {
        commands_arrive, data_in_arrives, data_out_arrives, refused_data_out_is_left,
        sense_comes_with_data_in, both_directions_fail, too_much_data_out_fails, addresses_are_read,
        other_units_are_absent, errors_fail,
    };
    unsigned it;

    for (it = 0; it < sizeof tests / sizeof tests[0]; it++) {
        begin_guests_of_two_ports();
        tests[it]();
        end_guests_of_two_ports();
    }
}
