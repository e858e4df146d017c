/* The functions of mehdalung.h: they test pointers and call the archive's, which are proved. After
 * that they make the calls on a disk's file that the archive asks for. This file is not proved. */
#include <stddef.h>
#include <string.h>

#include "mehdalung.h"

/* What a disk in a file has to have. A number that is 0 may be any, and so may MDL_ANY_PROFILE. */
typedef struct mdl_wanted {
    uint64_t blocks;
    uint64_t device; /* the mdl_device */
    uint32_t pool, profile;
    uint32_t has_identity;
    mdl_identity identity;
} mdl_wanted;

/* A call on a file. */
typedef struct mdl_call {
    uint32_t kind;   /* one of the numbers below */
    uint64_t place;  /* the offset, or the length of a cut */
    uint64_t length; /* how many bytes the call has */
    uint64_t device; /* the mdl_device */
} mdl_call;

enum { WRITE_AT = 1, CUT, SYNC, BEGIN_DRAFT, WRITE_DRAFT, EXCHANGE };

/* What only the archive's functions return: the call is done, and calls on the file wait; and, no call
 * waits. */
enum { CALLS_WAIT = 37, NO_CALL = 38 };

/* Of crates/mehdalung. Their pointers are not null. */
uint32_t mehdalung_make(mdl_disk *disk, uint64_t blocks, uint32_t pool);
uint32_t mehdalung_make_as(mdl_disk *disk, uint64_t blocks, uint32_t pool,
                           const mdl_identity *identity);
uint32_t mehdalung_make_with_profile(mdl_disk *disk, uint32_t profile, uint64_t blocks,
                                     uint32_t pool);
uint32_t mehdalung_make_as_with_profile(mdl_disk *disk, uint32_t profile, uint64_t blocks,
                                        uint32_t pool, const mdl_identity *identity);
uint32_t mehdalung_identity_of_seed(uint64_t seed, mdl_identity *identity);
void mehdalung_free(mdl_disk *disk);
uint32_t mehdalung_execute(mdl_disk *disk, uint32_t initiator, const uint8_t *cdb,
                           size_t cdb_length, const uint8_t *data_out, size_t data_out_length,
                           uint8_t *data_in, size_t data_in_length, mdl_reply *reply);
uint32_t mehdalung_execute_unflushed(mdl_disk *disk, uint32_t initiator, const uint8_t *cdb,
                                     size_t cdb_length, const uint8_t *data_out,
                                     size_t data_out_length, uint8_t *data_in,
                                     size_t data_in_length, mdl_reply *reply);
uint32_t mehdalung_power_cycle(mdl_disk *disk);
uint32_t mehdalung_happen(mdl_disk *disk, const mdl_happening *happening);
uint32_t mehdalung_read_happening(const uint8_t *text, size_t length, mdl_happening *happening);
uint32_t mehdalung_initiators(mdl_disk *disk, uint32_t *count);
uint32_t mehdalung_registered(mdl_disk *disk, uint64_t *mask);
uint32_t mehdalung_forget(mdl_disk *disk, uint32_t initiator);
/* The proved function takes what `fields` has as a record already, whose flags are 0 or 1. */
uint32_t mehdalung_sense(const uint8_t *sense, size_t length, mdl_sense *fields);
uint8_t mehdalung_exit_status(uint8_t status, const uint8_t *sense, size_t sense_length);
size_t mehdalung_decode(uint32_t kind, const uint8_t *data_in, size_t length, uint8_t *text,
                        size_t text_length);
size_t mehdalung_faults(mdl_disk *disk, uint8_t *text, size_t text_length);
uint32_t mehdalung_tool(const uint8_t *text, size_t length, uint8_t *data_out,
                        size_t data_out_length, mdl_command *command);
size_t mehdalung_version(uint8_t *text, size_t text_length);
uint32_t mehdalung_open(mdl_disk *disk, const mdl_wanted *wanted, const uint8_t *contents,
                        size_t length, mdl_damage *damage);
uint32_t mehdalung_next_call(mdl_disk *disk, mdl_call *call, uint8_t *bytes, size_t length);
uint32_t mehdalung_flush(mdl_disk *disk);
uint32_t mehdalung_fail(mdl_disk *disk, mdl_reply *reply);
uint64_t mehdalung_device(mdl_disk *disk);

/* The types have the sizes, and their fields the places, that the archive takes them to have. A
 * caller with short enums reads the lowest byte of an mdl_error, which has all of it. */
#define HAS_SIZE(type, size) typedef char type##_has_its_size[sizeof(type) == (size) ? 1 : -1]
#define IS_AT(type, field, place) \
    typedef char type##_##field##_is_at_its_place[offsetof(type, field) == (place) ? 1 : -1]
HAS_SIZE(mdl_error, 4);
HAS_SIZE(mdl_disk, 8);
IS_AT(mdl_disk, target, 0);
HAS_SIZE(mdl_identity, 48);
IS_AT(mdl_identity, vendor, 0);
IS_AT(mdl_identity, product, 8);
IS_AT(mdl_identity, revision, 24);
IS_AT(mdl_identity, serial, 28);
IS_AT(mdl_identity, local, 40);
HAS_SIZE(mdl_reply, 64);
IS_AT(mdl_reply, status, 0);
IS_AT(mdl_reply, sense_length, 1);
IS_AT(mdl_reply, sense, 2);
IS_AT(mdl_reply, data_in_length, 24);
IS_AT(mdl_reply, data_out_length, 32);
IS_AT(mdl_reply, visits, 40);
IS_AT(mdl_reply, probes, 48);
IS_AT(mdl_reply, links, 56);
HAS_SIZE(mdl_fault, 40);
IS_AT(mdl_fault, initiators, 0);
IS_AT(mdl_fault, lba, 8);
IS_AT(mdl_fault, count, 16);
IS_AT(mdl_fault, outcome, 20);
IS_AT(mdl_fault, blocks, 24);
IS_AT(mdl_fault, skip, 28);
IS_AT(mdl_fault, times, 30);
IS_AT(mdl_fault, has_code, 32);
IS_AT(mdl_fault, code, 33);
IS_AT(mdl_fault, healed_by_writes, 34);
IS_AT(mdl_fault, key, 35);
IS_AT(mdl_fault, asc, 36);
IS_AT(mdl_fault, ascq, 37);
HAS_SIZE(mdl_happening, 72);
IS_AT(mdl_happening, kind, 0);
IS_AT(mdl_happening, initiator, 4);
IS_AT(mdl_happening, initiators, 8);
IS_AT(mdl_happening, blocks, 16);
IS_AT(mdl_happening, asc, 24);
IS_AT(mdl_happening, ascq, 25);
IS_AT(mdl_happening, number, 26);
IS_AT(mdl_happening, fault, 32);
HAS_SIZE(mdl_sense, 16);
IS_AT(mdl_sense, key, 0);
IS_AT(mdl_sense, asc, 1);
IS_AT(mdl_sense, ascq, 2);
IS_AT(mdl_sense, has_information, 3);
IS_AT(mdl_sense, has_pointer, 4);
IS_AT(mdl_sense, in_command, 5);
IS_AT(mdl_sense, byte, 6);
IS_AT(mdl_sense, information, 8);
HAS_SIZE(mdl_command, 32);
IS_AT(mdl_command, cdb, 0);
IS_AT(mdl_command, cdb_length, 16);
IS_AT(mdl_command, kind, 20);
IS_AT(mdl_command, data_out_length, 24);
HAS_SIZE(mdl_wanted, 80);
IS_AT(mdl_wanted, blocks, 0);
IS_AT(mdl_wanted, device, 8);
IS_AT(mdl_wanted, pool, 16);
IS_AT(mdl_wanted, profile, 20);
IS_AT(mdl_wanted, has_identity, 24);
IS_AT(mdl_wanted, identity, 32);
HAS_SIZE(mdl_damage, 16);
IS_AT(mdl_damage, batch, 0);
IS_AT(mdl_damage, offset, 8);
HAS_SIZE(mdl_call, 32);
IS_AT(mdl_call, kind, 0);
IS_AT(mdl_call, place, 8);
IS_AT(mdl_call, length, 16);
IS_AT(mdl_call, device, 24);

/* The place of an empty buffer. */
static const uint8_t nothing[1] = { 0 };

/* Returns 1 if there are bytes to read, and no pointer to them. */
static int are_missing(const uint8_t *bytes, size_t length)
{
    return !bytes && length;
}

static mdl_device *device_of(mdl_disk *disk)
{
    return (mdl_device *)(uintptr_t)mehdalung_device(disk);
}

/* Makes a call on a file. Returns 0, or another number if it failed. */
static int make_call(const mdl_device *device, const mdl_call *call)
{
    switch (call->kind) {
    case WRITE_AT:
        return device->write_at(device->context, call->place, device->room, (size_t)call->length);
    case CUT:
        return device->cut(device->context, call->place);
    case SYNC:
        return device->sync(device->context);
    case BEGIN_DRAFT:
        return device->begin_draft(device->context);
    case WRITE_DRAFT:
        return device->write_draft(device->context, device->room, (size_t)call->length);
    case EXCHANGE:
        return device->exchange(device->context);
    default:
        return -1;
    }
}

/* Makes the calls on the file that wait, in their order, up to one that fails: a later sync may succeed
 * although this one has lost what it could not write. Returns 0, or another number if one has failed. */
static int make_calls(mdl_disk *disk)
{
    const mdl_device *device = device_of(disk);
    mdl_call call = { 0 };
    uint32_t error;

    while (!(error = mehdalung_next_call(disk, &call, device->room, device->room_length)))
        if (make_call(device, &call))
            return -1;
    return error != NO_CALL;
}

/* Ends a call of the archive that gives no reply. After mehdalung_fail no call waits. */
static mdl_error finish(mdl_disk *disk, uint32_t error)
{
    mdl_reply reply;

    if (error != CALLS_WAIT)
        return (mdl_error)error;
    if (!make_calls(disk))
        return MDL_OK;
    mehdalung_fail(disk, &reply);
    return MDL_FILE_FAILED;
}

mdl_error mdl_make(mdl_disk *disk, uint64_t blocks, uint32_t pool, const mdl_identity *identity)
{
    if (!disk)
        return MDL_NULL_POINTER;
    if (!identity)
        return (mdl_error)mehdalung_make(disk, blocks, pool);
    return (mdl_error)mehdalung_make_as(disk, blocks, pool, identity);
}

mdl_error mdl_make_with_profile(mdl_disk *disk, uint32_t profile, uint64_t blocks, uint32_t pool,
                                const mdl_identity *identity)
{
    if (!disk)
        return MDL_NULL_POINTER;
    if (!identity)
        return (mdl_error)mehdalung_make_with_profile(disk, profile, blocks, pool);
    return (mdl_error)mehdalung_make_as_with_profile(disk, profile, blocks, pool, identity);
}

mdl_error mdl_identity_of_seed(uint64_t seed, mdl_identity *identity)
{
    return identity ? (mdl_error)mehdalung_identity_of_seed(seed, identity) : MDL_NULL_POINTER;
}

/* Returns 1 if the device has all that the library uses. */
static int is_complete(const mdl_device *device)
{
    return device->write_at && device->cut && device->sync && device->begin_draft
        && device->write_draft && device->exchange && device->room;
}

mdl_error mdl_open_device(mdl_disk *disk, mdl_device *device, const uint8_t *contents,
                          size_t length, uint32_t profile, uint64_t blocks, uint32_t pool,
                          const mdl_identity *identity, mdl_damage *damage)
{
    mdl_wanted wanted = { 0 };
    mdl_damage none;
    uint32_t error;

    if (!disk || !device || are_missing(contents, length) || !is_complete(device))
        return MDL_NULL_POINTER;
    if (device->room_length < MDL_LONGEST_CALL)
        return MDL_BUFFER_TOO_SHORT;
    wanted.blocks = blocks;
    wanted.device = (uintptr_t)device;
    wanted.pool = pool;
    wanted.profile = profile;
    wanted.has_identity = identity != NULL;
    if (identity)
        wanted.identity = *identity;
    error = mehdalung_open(disk, &wanted, contents ? contents : nothing, length,
                           damage ? damage : &none);
    if (error != CALLS_WAIT)
        return (mdl_error)error;
    /* An empty file becomes the new disk. If that fails, there is no disk. */
    if (!make_calls(disk))
        return MDL_OK;
    mehdalung_free(disk);
    return MDL_FILE_FAILED;
}

mdl_error mdl_flush(mdl_disk *disk)
{
    return disk ? finish(disk, mehdalung_flush(disk)) : MDL_NULL_POINTER;
}

mdl_error mdl_close(mdl_disk *disk)
{
    mdl_error error = mdl_flush(disk);

    mdl_free(disk);
    return error == MDL_NO_FILE ? MDL_OK : error;
}

void mdl_free(mdl_disk *disk)
{
    mdl_device *device;

    if (!disk)
        return;
    device = device_of(disk);
    mehdalung_free(disk);
    if (device && device->close)
        device->close(device->context);
}

mdl_error mdl_execute(mdl_disk *disk, uint32_t initiator, const uint8_t *cdb, size_t cdb_length,
                      const uint8_t *data_out, size_t data_out_length, uint8_t *data_in,
                      size_t data_in_length, mdl_reply *reply)
{
    uint8_t none[1];
    uint32_t error;

    if (!disk || are_missing(cdb, cdb_length) || are_missing(data_out, data_out_length)
        || are_missing(data_in, data_in_length) || !reply)
        return MDL_NULL_POINTER;
    error = mehdalung_execute(disk, initiator, cdb ? cdb : nothing, cdb_length,
                              data_out ? data_out : nothing, data_out_length,
                              data_in ? data_in : none, data_in_length, reply);
    if (error != CALLS_WAIT)
        return (mdl_error)error;
    /* The reply goes out after the calls. If one fails, the disk gives another reply. */
    return make_calls(disk) ? (mdl_error)mehdalung_fail(disk, reply) : MDL_OK;
}

mdl_error mdl_execute_unflushed(mdl_disk *disk, uint32_t initiator, const uint8_t *cdb,
                                size_t cdb_length, const uint8_t *data_out,
                                size_t data_out_length, uint8_t *data_in, size_t data_in_length,
                                mdl_reply *reply)
{
    uint8_t none[1];
    uint32_t error;

    if (!disk || are_missing(cdb, cdb_length) || are_missing(data_out, data_out_length)
        || are_missing(data_in, data_in_length) || !reply)
        return MDL_NULL_POINTER;
    error = mehdalung_execute_unflushed(disk, initiator, cdb ? cdb : nothing, cdb_length,
                                        data_out ? data_out : nothing, data_out_length,
                                        data_in ? data_in : none, data_in_length, reply);
    if (error != CALLS_WAIT && error != MDL_FLUSH_OWED)
        return (mdl_error)error;
    /* Calls may wait, too, if a flush is owed. */
    if (make_calls(disk))
        return (mdl_error)mehdalung_fail(disk, reply);
    return error == CALLS_WAIT ? MDL_OK : MDL_FLUSH_OWED;
}

mdl_error mdl_power_cycle(mdl_disk *disk)
{
    return disk ? finish(disk, mehdalung_power_cycle(disk)) : MDL_NULL_POINTER;
}

mdl_error mdl_happen(mdl_disk *disk, const mdl_happening *happening)
{
    mdl_happening whole = { 0 };

    if (!disk || !happening)
        return MDL_NULL_POINTER;
    /* The record of another kind may end before its fault. */
    memcpy(&whole, happening,
           happening->kind == MDL_ARM ? sizeof whole : offsetof(mdl_happening, fault));
    return finish(disk, mehdalung_happen(disk, &whole));
}

mdl_error mdl_read_happening(const char *words, mdl_happening *happening)
{
    if (!words || !happening)
        return MDL_NULL_POINTER;
    return (mdl_error)mehdalung_read_happening((const uint8_t *)words, strlen(words), happening);
}

mdl_error mdl_initiators(mdl_disk *disk, uint32_t *count)
{
    return disk && count ? (mdl_error)mehdalung_initiators(disk, count) : MDL_NULL_POINTER;
}

mdl_error mdl_registered(mdl_disk *disk, uint64_t *mask)
{
    return disk && mask ? (mdl_error)mehdalung_registered(disk, mask) : MDL_NULL_POINTER;
}

mdl_error mdl_forget(mdl_disk *disk, uint32_t initiator)
{
    return disk ? finish(disk, mehdalung_forget(disk, initiator)) : MDL_NULL_POINTER;
}

mdl_error mdl_read_sense(const uint8_t *sense, size_t length, mdl_sense *fields)
{
    mdl_sense read = { 0 };
    mdl_error error;

    if (are_missing(sense, length) || !fields)
        return MDL_NULL_POINTER;
    error = (mdl_error)mehdalung_sense(sense ? sense : nothing, length, &read);
    if (error == MDL_OK)
        *fields = read;
    return error;
}

int mdl_exit_status(const mdl_reply *reply)
{
    size_t length;

    if (!reply)
        return 99;
    length = reply->sense_length < MDL_SENSE_LENGTH ? reply->sense_length : MDL_SENSE_LENGTH;
    return mehdalung_exit_status(reply->status, reply->sense, length);
}

size_t mdl_decode(uint32_t kind, const uint8_t *data_in, size_t length, char *text,
                  size_t text_length)
{
    uint8_t none[1];

    if (are_missing(data_in, length) || (!text && text_length))
        return MDL_NO_TEXT;
    return mehdalung_decode(kind, data_in ? data_in : nothing, length,
                            text ? (uint8_t *)text : none, text_length);
}

size_t mdl_faults(mdl_disk *disk, char *text, size_t text_length)
{
    uint8_t none[1];

    if (!disk || (!text && text_length))
        return MDL_NO_TEXT;
    return mehdalung_faults(disk, text ? (uint8_t *)text : none, text_length);
}

mdl_error mdl_tool(const char *words, uint8_t *data_out, size_t data_out_length,
                   mdl_command *command)
{
    if (!words || !data_out || !command)
        return MDL_NULL_POINTER;
    return (mdl_error)mehdalung_tool((const uint8_t *)words, strlen(words), data_out,
                                     data_out_length, command);
}

size_t mdl_version(char *text, size_t text_length)
{
    uint8_t none[1];

    if (!text && text_length)
        return MDL_NO_TEXT;
    return mehdalung_version(text ? (uint8_t *)text : none, text_length);
}
