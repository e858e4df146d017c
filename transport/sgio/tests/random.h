/* Not proved. Random numbers, commands and happenings for the tests. */
#ifndef RANDOM_H
#define RANDOM_H

#include <stddef.h>
#include <stdint.h>

#include "mehdalung.h"
#include "tests/below.h"

/* Random bytes. Many of them are 0. */
void random_bytes(uint64_t *seed, uint8_t *bytes, size_t length);

enum { MOST_RANDOM_LIST = 4096 };

struct random_command {
    uint8_t cdb[256], cdb_length;
    uint32_t data_out_length;           /* `data_out` has MOST_RANDOM_LIST of them */
    uint8_t data_out[MOST_RANDOM_LIST];
};

/* A command that fits in all its parts, or in most of them, or in none. */
void put_random_command(uint64_t *seed, uint32_t most_data_out, struct random_command *command);

/* A record that mdl_happen accepts or refuses. Returns its result. */
mdl_error put_random_happening(uint64_t *seed, mdl_happening *it);

#endif
