/* What the blocks have to contain that sessions of tests/mixed write. */
#ifndef MODELS_H
#define MODELS_H

#include <stddef.h>
#include <stdint.h>

enum { SESSIONS = 8, OWN_BLOCKS = 64, MOST_BLOCKS = 8, COUNTERS = 4 };

/* A command was executed, or it was not, or nobody knows. */
enum outcome { DONE, NOT_DONE, UNKNOWN };

/* A block that only one session writes. It is full of one word of eight bytes, or of zeros. */
struct block {
    uint64_t word;      /* after the last write that was executed */
    uint64_t other;     /* after the write that is under way, or of which nobody knows */
    uint8_t readers;    /* READs under way */
    uint8_t is_written; /* a write is under way */
    uint8_t is_unknown; /* it has `word` or `other` */
    uint8_t is_seen;    /* a READ has returned `other` while it is written */
};

/* The word that a write leaves, from its number and an address or a mark. No word is 0. */
uint64_t word_of(uint64_t write, uint16_t mark);

void fill_block(uint8_t *bytes, uint64_t word);

/* Whether a write of some blocks may begin now: none of them has a command under way, or is unknown. */
int may_write(const struct block *blocks, uint32_t count);

void begin_write(struct block *block, uint64_t word);

/* Returns 0 if a READ has returned what was not written. */
int end_write(struct block *block, enum outcome outcome);

/* What a READ of a block may return. */
struct reading {
    uint64_t word, other;
    int settles; /* it says what an unknown block has */
};

/* Whether a READ of some blocks may begin now. */
int may_read(const struct block *blocks, uint32_t count);

void begin_read(struct block *block, struct reading *reading);

/* Ends a READ of a block, with its bytes, or null if they have not come. Returns 0 if they are not what was
 * written. */
int end_read(struct block *block, const struct reading *reading, const uint8_t *bytes);

/* Whether the bytes are those of a block that nobody writes or reads. */
int is_as_written(const struct block *block, const uint8_t *bytes);

/* A block that all sessions write, by COMPARE AND WRITE only. It counts how often, and how often each. */
struct counter {
    uint64_t own;      /* the increments of this session that were executed */
    int is_unknown;    /* there may be one more */
    int is_under_way;  /* this session has a command of it under way */
    int is_known;      /* `image` is what this session has read or written last */
    int has_missed;    /* `image` was not what the block had */
    uint64_t image[64];
};

/* The total in a counter's bytes, or UINT64_MAX if it is not the sum, or the block is torn. */
uint64_t total_of(const uint64_t *image);

/* How often a session has incremented a counter with these bytes. */
uint64_t count_of(const uint64_t *image, unsigned session);

/* Notes what a session has read. Returns null, or what is wrong with it. */
const char *read_counter(struct counter *counter, unsigned session, const uint8_t *bytes);

/* Writes the data-out of COMPARE AND WRITE, two blocks, for an increment of this session. */
void put_increment(const struct counter *counter, unsigned session, uint8_t *data_out);

/* Notes how COMPARE AND WRITE has ended. If it found a difference, `has_missed` is 1. */
void end_increment(struct counter *counter, enum outcome outcome, int has_missed, const uint8_t *data_out);

#endif
