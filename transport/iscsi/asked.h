/* Which disk the path of a logical unit asks for. tgtadm takes it as the backing store.
 *
 *     blocks=4096:pool=16                      a disk of the extended profile in memory
 *     blocks=8:pool=4:profile=base:seed=0x2a   one of the base profile
 *     file=/srv/vm.disk                        the disk that a file has
 *     blocks=4096:pool=16:file=/srv/vm.disk    the same if it has these sizes; or a new one of them
 *
 * The parts are in any order, except that the path of a file is the last. It begins with a slash. */
#ifndef ASKED_H
#define ASKED_H

#include <stdint.h>

struct asked {
    uint64_t blocks, pool, seed; /* 0 where there is none */
    int has_blocks, has_pool, has_seed;
    uint32_t profile; /* or MDL_ANY_PROFILE */
    const char *file; /* a part of the path, or null: the disk is in memory */
};

/* Reads a path. Returns 0 if it is none of these. */
int read_asked(const char *text, struct asked *asked);

#endif
