/* Not proved. Random numbers, commands and happenings for the tests. */
#include "random.h"

#include <string.h>

/* A row of the disk's commands. It says which bits of byte 1 may be set, and where address and
 * count end (0 for none). It says how much data-out the command has for each of its count. */
struct row {
    uint8_t opcode, length, flags, address, count;
    uint16_t data_out;
};

static const struct row rows[] = {
    { 0x00, 6, 0x00, 0, 0, 0 },   { 0x03, 6, 0x01, 0, 4, 0 },    { 0x08, 6, 0x00, 3, 4, 0 },
    { 0x0A, 6, 0x00, 3, 4, 512 }, { 0x12, 6, 0x01, 0, 4, 0 },    { 0x15, 6, 0x11, 0, 4, 1 },
    { 0x1A, 6, 0x08, 2, 4, 0 },   { 0x25, 10, 0x00, 0, 0, 0 },   { 0x28, 10, 0x1A, 5, 8, 0 },
    { 0x2A, 10, 0x1A, 5, 8, 512 }, { 0x35, 10, 0x06, 5, 8, 0 },  { 0x41, 10, 0x18, 5, 8, 512 },
    { 0x42, 10, 0x01, 0, 8, 1 },  { 0x55, 10, 0x11, 0, 8, 1 },   { 0x5A, 10, 0x18, 2, 8, 0 },
    { 0x5E, 10, 0x03, 0, 8, 0 },  { 0x5F, 10, 0x07, 0, 8, 1 },   { 0x5F, 10, 0x07, 0, 8, 1 },
    { 0x88, 16, 0x1A, 9, 13, 0 }, { 0x8A, 16, 0x1A, 9, 13, 512 }, { 0x93, 16, 0x18, 9, 13, 512 },
    { 0x9E, 16, 0x12, 9, 13, 0 }
};

void random_bytes(uint64_t *seed, uint8_t *bytes, size_t length)
{
    uint32_t zeros = 1 + below(seed, 8), bound = below(seed, 4) ? 256 : 16;
    size_t at;

    for (at = 0; at < length; at++)
        bytes[at] = (uint8_t)(below(seed, 8) < zeros ? 0 : below(seed, bound));
}

/* A list of PERSISTENT RESERVE OUT, of UNMAP or of MODE SELECT as it should be, with few values. */
static void put_list(uint64_t *seed, struct random_command *command)
{
    uint8_t *list = command->data_out;

    memset(list, 0, sizeof command->data_out);
    if (command->cdb[0] == 0x5F) {
        command->cdb[2] = (uint8_t)below(seed, 9);
        command->cdb[8] = 24;
        list[7] = (uint8_t)below(seed, 3);
        list[15] = (uint8_t)below(seed, 3);
        list[20] = (uint8_t)below(seed, 2);
    } else if (command->cdb[0] == 0x42) {
        command->cdb[8] = 24;
        list[3] = 16;
        list[15] = (uint8_t)below(seed, 64);
        list[19] = (uint8_t)below(seed, 8);
    } else {
        command->cdb[1] |= 0x10;
        command->cdb[command->cdb[0] == 0x15 ? 4 : 8] = command->cdb[0] == 0x15 ? 4 : 8;
    }
}

/* Zeros, and few values where the row has fields; data-out as long as it has to be. */
static void put_fitting(uint64_t *seed, struct random_command *command)
{
    const struct row *row = &rows[below(seed, sizeof rows / sizeof rows[0])];

    memset(command->cdb, 0, sizeof command->cdb);
    random_bytes(seed, command->data_out, sizeof command->data_out);
    command->cdb_length = row->length;
    command->cdb[0] = row->opcode;
    command->cdb[1] = (uint8_t)(below(seed, 256) & row->flags);
    if (row->address)
        command->cdb[row->address] = (uint8_t)below(seed, 64);
    if (row->count)
        command->cdb[row->count] = (uint8_t)below(seed, row->data_out ? 8 : 64);
    if (row->data_out == 1)
        put_list(seed, command);
    command->data_out_length = row->count ? (uint32_t)command->cdb[row->count] * row->data_out : 0;
    if (command->data_out_length == 0)
        command->data_out_length = row->data_out == 512 ? 512 : 0;
}

/* A few bytes of it are changed, or its lengths. */
static void spoil(uint64_t *seed, uint32_t most_data_out, struct random_command *command)
{
    uint32_t count = 1 + below(seed, 3);

    while (count--)
        switch (below(seed, 6)) {
        case 0: command->cdb[below(seed, 16)] = (uint8_t)below(seed, 256); break;
        case 1: command->cdb[below(seed, 16)] ^= (uint8_t)(1 << below(seed, 8)); break;
        case 2: command->cdb_length = (uint8_t)below(seed, 20); break;
        case 3: command->data_out[below(seed, 32)] = (uint8_t)below(seed, 256); break;
        case 4: command->data_out_length = below(seed, 64); break;
        default: command->data_out_length = below(seed, 8) ? 0 : below(seed, most_data_out + 1);
        }
}

void put_random_command(uint64_t *seed, uint32_t most_data_out, struct random_command *command)
{
    put_fitting(seed, command);
    switch (below(seed, 4)) {
    case 0:
    case 1: return;
    case 2: spoil(seed, most_data_out, command); return;
    default:
        command->cdb_length = (uint8_t)(below(seed, 4) ? below(seed, 17) : below(seed, 256));
        random_bytes(seed, command->cdb, command->cdb_length);
        random_bytes(seed, command->data_out, sizeof command->data_out);
        spoil(seed, most_data_out, command);
    }
}

/* Whether a base disk has the initiators of a mask. All bits stand for all that it has. */
static int has_initiators(uint64_t mask)
{
    return mask == UINT64_MAX || !(mask >> MDL_INITIATORS);
}

/* The result of mdl_happen for a fault, if a number is free. */
static mdl_error result_of_fault(const mdl_fault *it)
{
    switch (it->outcome) {
    case MDL_ARRIVAL_CHECK_CONDITION:
    case MDL_ARRIVAL_DEFERRED_ERROR:
    case MDL_MEDIUM_CHECK_CONDITION:
    case MDL_AFTER_CHECK_CONDITION:
        if (it->key > 15 || it->key == 12)
            return MDL_SENSE_KEY;
        break;
    default:
        if (it->outcome > MDL_AFTER_SHORT_DATA_IN)
            return MDL_UNKNOWN_FAULT;
    }
    if (it->initiators == 0 || !has_initiators(it->initiators))
        return MDL_NO_INITIATOR;
    if (it->has_code > 1 || it->healed_by_writes > (it->count > 0))
        return MDL_FAULT_FLAG;
    return MDL_OK;
}

/* A fault that mdl_happen accepts, or one of whose fields it may refuse. */
static void put_random_fault(uint64_t *seed, mdl_fault *it)
{
    memset(it, 0, sizeof *it);
    it->initiators = 1 + below(seed, (1 << MDL_INITIATORS) - 1);
    it->outcome = below(seed, MDL_AFTER_SHORT_DATA_IN + 1);
    it->count = below(seed, 2);
    it->healed_by_writes = (uint8_t)below(seed, it->count + 1);
    it->has_code = (uint8_t)below(seed, 2);
    it->key = (uint8_t)below(seed, 16);
    random_bytes(seed, &it->code, 1);
    switch (below(seed, 12)) {
    case 0: it->initiators <<= 8 * below(seed, 8); break;
    case 1: it->outcome += 1u << below(seed, 31); break;
    case 2: it->count <<= 8 * below(seed, 4); break;
    case 3: it->healed_by_writes = (uint8_t)below(seed, 256); break;
    case 4: it->has_code = (uint8_t)below(seed, 256); break;
    case 5: it->key = (uint8_t)below(seed, 256); break;
    case 6: it->initiators = 0; break;
    case 7: it->initiators = UINT64_MAX >> below(seed, 3); break;
    default: break;
    }
}

/* The result of mdl_happen for a record, on a base disk. */
static mdl_error result_of(const mdl_happening *it, int has_known_code)
{
    switch (it->kind) {
    case MDL_POWER_CYCLE:
    case MDL_LOGICAL_UNIT_RESET:
    case MDL_TARGET_RESET: return MDL_OK;
    case MDL_NEXUS_LOSS: return it->initiator < MDL_INITIATORS ? MDL_OK : MDL_NO_INITIATOR;
    case MDL_ATTENTION:
        if (!has_known_code)
            return MDL_UNKNOWN_CONDITION;
        return has_initiators(it->initiators) ? MDL_OK : MDL_NO_INITIATOR;
    case MDL_GROW: return it->blocks > 0 && it->blocks <= (uint64_t)1 << 40 ? MDL_OK : MDL_BLOCKS;
    case MDL_ARM: return result_of_fault(&it->fault);
    case MDL_DISARM: return it->number < MDL_MOST_FAULTS ? MDL_OK : MDL_FAULT_NUMBER;
    case MDL_DISARM_ALL: return MDL_OK;
    default: return MDL_UNKNOWN_HAPPENING;
    }
}

/* Now and then a number has only its higher bytes. 29h/01h is the code of no condition. */
mdl_error put_random_happening(uint64_t *seed, mdl_happening *it)
{
    const int has_known_code = below(seed, 4) > 0;

    memset(it, 0, sizeof *it);
    it->kind = below(seed, MDL_DISARM_ALL + 2);
    it->number = (uint8_t)below(seed, MDL_MOST_FAULTS + 1);
    put_random_fault(seed, &it->fault);
    it->initiator = below(seed, MDL_INITIATORS + 1);
    it->initiators = below(seed, (1 << MDL_INITIATORS) + 1);
    it->blocks = below(seed, 8) ? 4096 + below(seed, 512) : 0;
    it->asc = 0x29;
    it->ascq = has_known_code ? 0x03 : 0x01;
    switch (below(seed, 16)) {
    case 0: it->kind <<= 8 * below(seed, 4); break;
    case 1: it->initiator <<= 8 * below(seed, 4); break;
    case 2: it->initiators <<= 8 * below(seed, 8); break;
    case 3: it->blocks <<= 8 * below(seed, 7); break;
    case 4: it->initiators = UINT64_MAX >> below(seed, 3); break;
    default: break;
    }
    return result_of(it, has_known_code);
}
