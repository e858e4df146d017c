/* Random numbers for the tests: the same ones for a seed on each machine. */
#ifndef BELOW_H
#define BELOW_H

#include <stdint.h>

/* A number below `bound`, from a seed that is not 0, which becomes another. */
static inline uint32_t below(uint64_t *seed, uint32_t bound)
{
    *seed ^= *seed >> 12;
    *seed ^= *seed << 25;
    *seed ^= *seed >> 27;
    return (uint32_t)((*seed * 0x2545F4914F6CDD1Du) >> 33) % bound;
}

#endif
