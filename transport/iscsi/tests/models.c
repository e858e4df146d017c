/* See models.h. */
#include "models.h"

#include <string.h>

enum { LENGTH = 512, WORDS = LENGTH / 8, FIRST_COUNT = 1 };

uint64_t word_of(uint64_t write, uint16_t mark)
{
    return write << 16 | mark;
}

void fill_block(uint8_t *bytes, uint64_t word)
{
    size_t at;

    for (at = 0; at < LENGTH; at += sizeof word)
        memcpy(bytes + at, &word, sizeof word);
}

/* Whether all words of a block are this one. */
static int is_full_of(const uint8_t *bytes, uint64_t word)
{
    size_t at;

    for (at = 0; at < LENGTH; at += sizeof word)
        if (memcmp(bytes + at, &word, sizeof word))
            return 0;
    return 1;
}

int may_write(const struct block *blocks, uint32_t count)
{
    uint32_t at;

    for (at = 0; at < count; at++)
        if (blocks[at].readers || blocks[at].is_written || blocks[at].is_unknown)
            return 0;
    return 1;
}

void begin_write(struct block *block, uint64_t word)
{
    block->other = word;
    block->is_written = 1;
    block->is_seen = 0;
}

int end_write(struct block *block, enum outcome outcome)
{
    block->is_written = 0;
    if (outcome == DONE)
        block->word = block->other;
    else if (outcome == UNKNOWN)
        block->is_unknown = 1;
    return outcome != NOT_DONE || !block->is_seen;
}

int may_read(const struct block *blocks, uint32_t count)
{
    uint32_t at;

    for (at = 0; at < count; at++)
        if (blocks[at].is_unknown && blocks[at].readers)
            return 0;
    return 1;
}

void begin_read(struct block *block, struct reading *reading)
{
    reading->word = block->word;
    reading->other = block->is_written || block->is_unknown ? block->other : block->word;
    reading->settles = block->is_unknown;
    block->readers++;
}

int end_read(struct block *block, const struct reading *reading, const uint8_t *bytes)
{
    block->readers--;
    if (!bytes)
        return 1;
    if (!is_full_of(bytes, reading->word)) {
        if (!is_full_of(bytes, reading->other))
            return 0;
        if (reading->settles)
            block->word = reading->other;
        else if (block->is_written)
            block->is_seen = 1;
        else if (!block->is_unknown && block->word != reading->other)
            return 0; /* the write has ended, and was not executed */
    }
    if (reading->settles)
        block->is_unknown = 0;
    return 1;
}

int is_as_written(const struct block *block, const uint8_t *bytes)
{
    return is_full_of(bytes, block->word) || (block->is_unknown && is_full_of(bytes, block->other));
}

uint64_t count_of(const uint64_t *image, unsigned session)
{
    return image[FIRST_COUNT + session];
}

uint64_t total_of(const uint64_t *image)
{
    uint64_t sum = 0;
    unsigned at;

    for (at = 0; at < SESSIONS; at++)
        sum += count_of(image, at);
    for (at = FIRST_COUNT + SESSIONS; at < WORDS; at++)
        if (image[at] != image[0])
            return UINT64_MAX;
    return sum == image[0] ? sum : UINT64_MAX;
}

const char *read_counter(struct counter *counter, unsigned session, const uint8_t *bytes)
{
    uint64_t before = counter->image[0], total, count;

    memcpy(counter->image, bytes, sizeof counter->image);
    total = total_of(counter->image);
    count = count_of(counter->image, session);
    if (total == UINT64_MAX)
        return "a counter is torn, or is not the sum";
    if (total < before)
        return "a counter has gone back";
    if (counter->has_missed && total == before)
        return "a COMPARE AND WRITE found a difference where there is none";
    if (count != counter->own && !(counter->is_unknown && count == counter->own + 1))
        return "a counter has not what this session has added";
    counter->own = count;
    counter->is_unknown = counter->has_missed = 0;
    counter->is_known = 1;
    return NULL;
}

void put_increment(const struct counter *counter, unsigned session, uint8_t *data_out)
{
    uint64_t image[WORDS];
    unsigned at;

    memcpy(image, counter->image, sizeof image);
    image[0]++;
    image[FIRST_COUNT + session]++;
    for (at = FIRST_COUNT + SESSIONS; at < WORDS; at++)
        image[at] = image[0];
    memcpy(data_out, counter->image, LENGTH);
    memcpy(data_out + LENGTH, image, LENGTH);
}

void end_increment(struct counter *counter, enum outcome outcome, int has_missed, const uint8_t *data_out)
{
    if (outcome == DONE) {
        memcpy(counter->image, data_out + LENGTH, LENGTH);
        counter->own++;
    }
    counter->is_unknown |= outcome == UNKNOWN;
    counter->has_missed = has_missed;
    counter->is_known = outcome != UNKNOWN && !has_missed;
}
