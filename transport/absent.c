/* Not proved. See absent.h. */
#include "absent.h"

#include <string.h>

/* Operation codes, and bits of byte 1 (SPC-4, 6.6, 6.33 and 6.39). */
enum { REQUEST_SENSE = 0x03, INQUIRY = 0x12, REPORT_LUNS = 0xA0, EVPD = 0x01, DESC = 0x01 };

/* SELECT REPORT of REPORT LUNS (SPC-4, 6.33). */
enum { WITHOUT_WELL_KNOWN, ONLY_WELL_KNOWN, ALL_UNITS };

/* Standard INQUIRY data (SPC-4, 6.6.2): peripheral qualifier 011b with device type 1Fh, SPC-4, response data
 * format 2, 31 more bytes, and the names of the disk. */
static const uint8_t inquiry_data[] = "\x7F\x00\x06\x02\x1F\x00\x00\x00SGMODEL THIN DISK       0100";

_Static_assert(sizeof inquiry_data == MOST_ABSENT_DATA_IN + 1, "a zero follows the data");

/* A list of 8 bytes: LUN 0, where the target has a logical unit. And a list of none. */
static const uint8_t lun_0[16] = { [3] = 8 }, no_lun[8];

/* ILLEGAL REQUEST, LOGICAL UNIT NOT SUPPORTED, in both formats (SPC-4, 4.5). */
static const uint8_t not_supported_fixed[18] = { 0x70, [2] = 0x05, [7] = 0x0A, [12] = 0x25 };
static const uint8_t not_supported_descriptor[8] = { 0x72, 0x05, 0x25 };

/* ILLEGAL REQUEST, INVALID FIELD IN CDB. */
static const uint8_t invalid_field[18] = { 0x70, [2] = 0x05, [7] = 0x0A, [12] = 0x24 };

/* GOOD with data-in, cut at the allocation length. */
static void give(uint8_t *data_in, mdl_reply *reply, const uint8_t *bytes, size_t length, size_t allocation)
{
    reply->data_in_length = length < allocation ? length : allocation;
    memcpy(data_in, bytes, reply->data_in_length);
}

static void refuse(mdl_reply *reply, const uint8_t *sense)
{
    reply->status = MDL_CHECK_CONDITION;
    reply->sense_length = sizeof invalid_field;
    memcpy(reply->sense, sense, sizeof invalid_field);
}

static void inquire(const uint8_t *cdb, uint8_t *data_in, mdl_reply *reply)
{
    if (cdb[1] & EVPD || cdb[2])
        refuse(reply, invalid_field);
    else
        give(data_in, reply, inquiry_data, MOST_ABSENT_DATA_IN, (size_t)cdb[3] << 8 | cdb[4]);
}

static void report_luns(const uint8_t *cdb, uint8_t *data_in, mdl_reply *reply)
{
    size_t allocation = (size_t)cdb[6] << 24 | (size_t)cdb[7] << 16 | (size_t)cdb[8] << 8 | cdb[9];

    switch (cdb[2]) {
    case WITHOUT_WELL_KNOWN: case ALL_UNITS:
        give(data_in, reply, lun_0, sizeof lun_0, allocation);
        break;
    case ONLY_WELL_KNOWN:
        give(data_in, reply, no_lun, sizeof no_lun, allocation);
        break;
    default: refuse(reply, invalid_field);
    }
}

static void request_sense(const uint8_t *cdb, uint8_t *data_in, mdl_reply *reply)
{
    if (cdb[1] & DESC)
        give(data_in, reply, not_supported_descriptor, sizeof not_supported_descriptor, cdb[4]);
    else
        give(data_in, reply, not_supported_fixed, sizeof not_supported_fixed, cdb[4]);
}

void execute_absent(const uint8_t *cdb, uint8_t *data_in, mdl_reply *reply)
{
    memset(reply, 0, sizeof *reply);
    switch (cdb[0]) {
    case INQUIRY: inquire(cdb, data_in, reply); break;
    case REPORT_LUNS: report_luns(cdb, data_in, reply); break;
    case REQUEST_SENSE: request_sense(cdb, data_in, reply); break;
    default: refuse(reply, not_supported_fixed);
    }
}
