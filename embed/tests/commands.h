/* Random commands of all kinds, and what happens between them, from a seed. */
#ifndef COMMANDS_H
#define COMMANDS_H

#include <string.h>

#include "below.h"
#include "mehdalung.h"

enum { MOST_DATA_OUT = 3 * MDL_BLOCK_LENGTH };

struct command {
    uint32_t initiator;
    int is_happening; /* `happening` is in the place of the command */
    mdl_happening happening;
    size_t cdb_length, data_out_length;
    uint8_t cdb[16], data_out[MOST_DATA_OUT];
};

static void cdb_of(struct command *c, uint8_t opcode, size_t length)
{
    memset(c->cdb, 0, sizeof c->cdb);
    c->cdb[0] = opcode;
    c->cdb_length = length;
}

/* The data-out is any bytes, once in sixteen too short or too long by one. */
static void fill_data_out(struct command *c, uint64_t *seed, size_t length)
{
    uint8_t byte = (uint8_t)below(seed, 256);
    size_t at;

    if (below(seed, 16) == 0 && length > 0)
        length += below(seed, 2) && length < MOST_DATA_OUT ? 1 : (size_t)-1;
    for (at = 0; at < length; at++)
        c->data_out[at] = (uint8_t)(byte + at / 64);
    c->data_out_length = length;
}

static void reserve_out(struct command *c, uint64_t *seed)
{
    static const uint8_t actions[] = { 0, 0, 0, 1, 1, 2, 3, 4, 5, 6, 6, 7 };

    cdb_of(c, 0x5F, 10);
    c->cdb[1] = actions[below(seed, sizeof actions)];
    c->cdb[2] = (uint8_t)(below(seed, 8) + 1);
    c->cdb[8] = 24;
    fill_data_out(c, seed, 24);
    memset(c->data_out, 0, 24);
    c->data_out[7] = (uint8_t)(below(seed, 4) ? 0xA0 + c->initiator : 0);
    c->data_out[15] = (uint8_t)(0xA0 + below(seed, 4));
    c->data_out[20] = (uint8_t)(below(seed, 8) == 0);
}

static void select_mode(struct command *c, uint64_t *seed)
{
    static const uint8_t page[] = { 0, 0, 0, 0, 0x0A, 0x0A, 0, 0, 0, 0, 0, 0, 0, 0, 0, 0 };

    cdb_of(c, 0x15, 6);
    c->cdb[1] = (uint8_t)(0x10 | below(seed, 2));
    c->cdb[4] = sizeof page;
    fill_data_out(c, seed, sizeof page);
    memcpy(c->data_out, page, sizeof page);
    c->data_out[6] = (uint8_t)(below(seed, 2) << 2);
    c->data_out[8] = (uint8_t)(below(seed, 8) == 0 ? 8 : 0);
}

static void unmap(struct command *c, uint64_t *seed)
{
    uint32_t count = below(seed, 4), at;

    cdb_of(c, 0x42, 10);
    c->cdb[8] = (uint8_t)(8 + 16 * count);
    fill_data_out(c, seed, 8 + 16 * count);
    memset(c->data_out, 0, 8 + 16 * count);
    c->data_out[1] = (uint8_t)(6 + 16 * count);
    c->data_out[3] = (uint8_t)(16 * count);
    for (at = 0; at < count; at++) {
        c->data_out[8 + 16 * at + 7] = (uint8_t)below(seed, 40);
        c->data_out[8 + 16 * at + 11] = (uint8_t)below(seed, 6);
    }
}

static void random_bytes(struct command *c, uint64_t *seed)
{
    static const uint8_t opcodes[] = { 0x00, 0x03, 0x12, 0x15, 0x1A, 0x25, 0x28, 0x2A, 0x35, 0x41,
                                       0x42, 0x55, 0x5A, 0x5E, 0x5F, 0x88, 0x8A, 0x91, 0x93, 0x9E };
    size_t at;

    cdb_of(c, opcodes[below(seed, sizeof opcodes)], 1 + below(seed, 16));
    for (at = 1; at < c->cdb_length; at++)
        c->cdb[at] = (uint8_t)(below(seed, 3) ? 0 : below(seed, 256));
    if (below(seed, 8) == 0)
        c->cdb[0] = (uint8_t)below(seed, 256);
    fill_data_out(c, seed, below(seed, 64));
}

static void write_10(struct command *c, uint64_t *seed)
{
    cdb_of(c, 0x2A, 10);
    c->cdb[5] = (uint8_t)below(seed, 40);
    c->cdb[8] = (uint8_t)below(seed, 4);
    fill_data_out(c, seed, MDL_BLOCK_LENGTH * c->cdb[8]);
}

static void read_10(struct command *c, uint64_t *seed)
{
    cdb_of(c, 0x28, 10);
    c->cdb[4] = (uint8_t)(below(seed, 16) ? 0 : 0x0F);
    c->cdb[5] = (uint8_t)(below(seed, 40) + (c->cdb[4] ? 0xE0 : 0));
    c->cdb[8] = (uint8_t)below(seed, 5);
}

static void read_capacity_16_or_lba_status(struct command *c, uint64_t *seed)
{
    cdb_of(c, 0x9E, 16);
    c->cdb[1] = (uint8_t)(0x10 + 2 * below(seed, 2));
    c->cdb[9] = (uint8_t)below(seed, 40);
    c->cdb[13] = (uint8_t)below(seed, 120);
}

static void reserve_in(struct command *c, uint64_t *seed)
{
    cdb_of(c, 0x5E, 10);
    c->cdb[1] = (uint8_t)below(seed, 5);
    c->cdb[8] = (uint8_t)below(seed, 200);
}

static void inquiry(struct command *c, uint64_t *seed)
{
    static const uint8_t pages[] = { 0x00, 0x80, 0x83, 0xB0, 0xB2, 0x81 };

    cdb_of(c, 0x12, 6);
    c->cdb[1] = (uint8_t)below(seed, 2);
    c->cdb[2] = c->cdb[1] ? pages[below(seed, sizeof pages)] : 0;
    c->cdb[4] = (uint8_t)below(seed, 100);
}

static void request_sense(struct command *c, uint64_t *seed)
{
    cdb_of(c, 0x03, 6);
    c->cdb[1] = (uint8_t)below(seed, 2);
    c->cdb[4] = (uint8_t)below(seed, 40);
}

static void sense_mode(struct command *c, uint64_t *seed)
{
    cdb_of(c, 0x1A, 6);
    c->cdb[2] = (uint8_t)(below(seed, 4) << 6 | (below(seed, 2) ? 0x3F : 0x0A));
    c->cdb[4] = (uint8_t)below(seed, 200);
}

static void write_same(struct command *c, uint64_t *seed)
{
    cdb_of(c, 0x93, 16);
    c->cdb[1] = (uint8_t)(below(seed, 2) << 3);
    c->cdb[9] = (uint8_t)below(seed, 40);
    c->cdb[13] = (uint8_t)below(seed, 6);
    fill_data_out(c, seed, MDL_BLOCK_LENGTH);
}

static void test_ready_or_synchronize(struct command *c, uint64_t *seed)
{
    cdb_of(c, below(seed, 2) ? 0x00 : 0x35, 10);
    c->cdb_length = c->cdb[0] ? 10 : 6;
}

static void read_capacity_or_power_cycle(struct command *c, uint64_t *seed)
{
    c->is_happening = below(seed, 8) == 0;
    cdb_of(c, 0x25, 10);
}

/* A command of an initiator, or now and then a power cycle. */
static void command_of(uint32_t initiator, struct command *c, uint64_t *seed)
{
    static void (*const kinds[])(struct command *, uint64_t *) = {
        write_10, write_10, write_10, read_10, read_10, unmap, read_capacity_16_or_lba_status,
        reserve_in, reserve_out, reserve_out, reserve_out, inquiry, request_sense, request_sense,
        sense_mode, select_mode, write_same, test_ready_or_synchronize, random_bytes,
        read_capacity_or_power_cycle,
    };

    c->initiator = initiator;
    c->is_happening = 0;
    memset(&c->happening, 0, sizeof c->happening); /* a power cycle */
    c->data_out_length = 0;
    kinds[below(seed, sizeof kinds / sizeof *kinds)](c, seed);
}

/* The same, of one of the initiators that every disk has. */
static inline void next_command(struct command *c, uint64_t *seed)
{
    command_of(below(seed, MDL_INITIATORS), c, seed);
}

/* The same, for an extended disk. Each fourth command is of any of its initiators. PERSISTENT RESERVE IN has
 * longer lists. */
static void next_extended_command(struct command *c, uint64_t *seed)
{
    command_of(below(seed, below(seed, 4) ? MDL_INITIATORS : MDL_MOST_INITIATORS), c, seed);
    if (c->cdb[0] == 0x5E)
        c->cdb[7] = (uint8_t)below(seed, 16);
}

/* Whatever can happen to a disk. A condition is for one initiator or for each. */
static void random_happening(struct command *c, uint64_t *seed)
{
    static const uint8_t codes[][2] = {
        { 0x28, 0x00 }, { 0x29, 0x00 }, { 0x29, 0x02 }, { 0x29, 0x03 }, { 0x29, 0x04 }, { 0x29, 0x07 },
        { 0x2A, 0x01 }, { 0x2A, 0x03 }, { 0x2A, 0x04 }, { 0x2A, 0x05 }, { 0x2A, 0x06 }, { 0x2A, 0x09 },
        { 0x38, 0x07 }, { 0x3F, 0x01 }, { 0x3F, 0x03 }, { 0x3F, 0x0E },
    };
    const uint8_t *code = codes[below(seed, sizeof codes / sizeof *codes)];

    c->is_happening = 1;
    c->happening.kind = below(seed, MDL_GROW + 1);
    c->happening.initiator = c->initiator;
    c->happening.initiators = below(seed, 2) ? UINT64_MAX : (uint64_t)1 << c->initiator;
    c->happening.blocks = 4064 + below(seed, 48);
    c->happening.asc = code[0];
    c->happening.ascq = code[1];
}

/* A command for a disk of a profile, or now and then whatever can happen between two commands. */
static inline void next_event(mdl_profile profile, struct command *c, uint64_t *seed)
{
    if (profile == MDL_PROFILE_BASE)
        next_command(c, seed);
    else
        next_extended_command(c, seed);
    if (below(seed, 16) == 0)
        random_happening(c, seed);
}

#endif
