/* speed BLOCKS CALLS: calls mdl_execute, so that bench/call can measure the calls from outside.
 * crates/callbench makes the same calls in Rattle.
 *
 * A disk of 4,096 blocks with a pool of 64 gets 64 blocks by one WRITE. Then come CALLS times READ(10)
 * of the first BLOCKS blocks, or TEST UNIT READY if BLOCKS is 0. The program prints how many of these
 * were good. */
#include <stdio.h>
#include <stdlib.h>

#include "mehdalung.h"

static uint8_t data_in[MDL_BUFFER_LENGTH], data_out[64 * MDL_BLOCK_LENGTH];

int main(int count, char **words)
{
    static const uint8_t ready[6] = { 0 };
    const uint8_t write[10] = { 0x2A, [8] = 64 };
    uint8_t read[10] = { 0x28 };
    const uint8_t *cdb = ready;
    size_t length = sizeof ready;
    mdl_disk disk = MDL_NONE;
    mdl_reply reply;
    long calls, good = 0;

    if (count != 3 || mdl_make(&disk, 4096, 64, NULL))
        return 99;
    mdl_execute(&disk, 0, ready, 6, NULL, 0, data_in, sizeof data_in, &reply);
    mdl_execute(&disk, 0, write, 10, data_out, sizeof data_out, data_in, sizeof data_in, &reply);
    read[8] = (uint8_t)atoi(words[1]);
    if (read[8]) {
        cdb = read;
        length = sizeof read;
    }
    for (calls = atol(words[2]); calls; calls--) {
        mdl_execute(&disk, 0, cdb, length, NULL, 0, data_in, sizeof data_in, &reply);
        good += reply.status == MDL_GOOD;
    }
    printf("%ld commands\n", good);
    mdl_free(&disk);
    return 0;
}
