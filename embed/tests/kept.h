/* What a power cycle leaves of a disk, to compare a disk in a file with one in memory. */
#ifndef KEPT_H
#define KEPT_H

#include <string.h>

#include "mehdalung.h"

static uint8_t data_in[MDL_BUFFER_LENGTH];
static mdl_reply reply;

/* Mixes bytes into a number, as FNV-1a does. */
static inline void mix(uint64_t *digest, const void *bytes, size_t length)
{
    const uint8_t *byte = bytes;

    while (length--)
        *digest = (*digest ^ *byte++) * 0x100000001B3u;
}

/* Executes a command and mixes its reply into a number. */
static inline void mix_reply(uint64_t *digest, mdl_disk *disk, uint32_t initiator,
                             const uint8_t *cdb, size_t cdb_length, const uint8_t *data_out,
                             size_t data_out_length)
{
    mdl_error error = mdl_execute(disk, initiator, cdb, cdb_length, data_out, data_out_length,
                                  data_in, sizeof data_in, &reply);

    mix(digest, &error, sizeof error);
    if (error)
        return;
    mix(digest, &reply.status, sizeof reply.status);
    mix(digest, reply.sense, reply.sense_length);
    mix(digest, data_in, reply.data_in_length);
}

/* Initiator 0 registers and clears the reservation, so that it may read the blocks. */
static inline void clear_reservation(uint64_t *digest, mdl_disk *disk)
{
    static const uint8_t register_cdb[10] = { 0x5F, 6, [8] = 24 };
    static const uint8_t clear_cdb[10] = { 0x5F, 3, [8] = 24 };
    static const uint8_t new_key[24] = { [15] = 7 }, own_key[24] = { [7] = 7 };

    mix_reply(digest, disk, 0, register_cdb, sizeof register_cdb, new_key, sizeof new_key);
    mix_reply(digest, disk, 0, clear_cdb, sizeof clear_cdb, own_key, sizeof own_key);
}

/* Two disks that a power cycle leaves alike have the same number. The others have another, unless chance
 * is very unkind. The commands clear the reservation and all unit attentions. */
static inline uint64_t digest_of(mdl_disk *disk)
{
    static const uint8_t looks[][16] = {
        { 0x9E, 0x10, [13] = 32 },          /* READ CAPACITY(16) */
        { 0x5A, 0x08, 0x3F, [8] = 255 },    /* MODE SENSE(10), the current values */
        { 0x5A, 0x08, 0xFF, [8] = 255 },    /* and the saved values */
        { 0x5E, 0x00, [7] = 16 },           /* READ KEYS */
        { 0x5E, 0x01, [7] = 16 },           /* READ RESERVATION */
        { 0x5E, 0x03, [7] = 16 },           /* READ FULL STATUS */
        { 0x12, 0x00, [4] = 96 },           /* INQUIRY */
        { 0x12, 0x01, 0x83, [4] = 96 },     /* its page of names */
        { 0x12, 0x01, 0xB0, [4] = 64 },     /* and its page of limits */
    };
    static const uint8_t ready[6], status[16] = { 0x9E, 0x12, [12] = 0x40 };
    static const uint8_t read[10] = { 0x28, [8] = 64 };
    uint64_t digest = 0xCBF29CE484222325u;
    char text[32768] = ""; /* eight faults, each with two words and a line for each of 64 initiators */
    uint32_t at, initiators = 0;

    mdl_faults(disk, text, sizeof text);
    mix(&digest, text, strlen(text));
    mdl_initiators(disk, &initiators);
    for (at = 0; at < initiators; at++)
        mix_reply(&digest, disk, at, ready, sizeof ready, NULL, 0);
    for (at = 0; at < sizeof looks / sizeof *looks; at++) {
        size_t length = looks[at][0] == 0x9E ? 16 : looks[at][0] == 0x12 ? 6 : 10;

        mix_reply(&digest, disk, 0, looks[at], length, NULL, 0);
    }
    clear_reservation(&digest, disk);
    mix_reply(&digest, disk, 0, status, sizeof status, NULL, 0);
    mix_reply(&digest, disk, 0, read, sizeof read, NULL, 0);
    return digest;
}

#endif
