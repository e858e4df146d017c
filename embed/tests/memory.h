/* A file in memory, whose power fails at one of its calls. */
#ifndef MEMORY_H
#define MEMORY_H

#include <stdio.h>
#include <stdlib.h>
#include <string.h>

#include "below.h"
#include "mehdalung.h"

enum { SECTOR = 512 };

struct bytes {
    uint8_t *at;
    size_t length;
};

/* A file, what of it survives a power failure, and its draft. After the failure `file` is what it has
 * left, and each call fails. */
struct memory {
    mdl_device device;
    struct bytes file, durable, draft;
    size_t changed_from;           /* before this offset, `file` and `durable` have the same bytes */
    unsigned long calls, fails_at; /* the number of calls, and the one at which the power fails, or 0 */
    unsigned long later_calls;     /* the number of calls after that one */
    unsigned long drafts, closed;
    uint64_t seed;
};

static inline void set_length(struct bytes *it, size_t length)
{
    it->at = realloc(it->at, length + 1);
    if (!it->at)
        exit(99);
    if (length > it->length)
        memset(it->at + it->length, 0, length - it->length);
    it->length = length;
}

static inline void copy_bytes(struct bytes *to, const struct bytes *from)
{
    set_length(to, from->length);
    if (from->length > 0)
        memcpy(to->at, from->at, from->length);
}

static inline uint8_t byte_at(const struct bytes *it, size_t at)
{
    return at < it->length ? it->at[at] : 0;
}

/* One sector that was not synced: the old bytes, the new ones, some of both, or any. */
static inline void tear_sector(uint8_t *to, const struct bytes *old, const struct bytes *new,
                               size_t from, size_t end, uint64_t *seed)
{
    uint32_t kind = below(seed, 4);
    size_t at, edge = from + below(seed, SECTOR);

    for (at = from; at < end; at++) {
        int is_new = kind == 0 || (kind == 1 && at < edge);

        to[at] = is_new ? byte_at(new, at) : byte_at(old, at);
        if (kind == 3 && byte_at(new, at) != byte_at(old, at))
            to[at] = (uint8_t)below(seed, 256);
    }
}

/* The power fails: what was not synced is kept, lost or torn, sector by sector. */
static inline void tear(struct memory *it)
{
    struct bytes left = { NULL, 0 };
    size_t least = it->file.length < it->durable.length ? it->file.length : it->durable.length;
    size_t most = it->file.length + it->durable.length - least, at;
    uint32_t choice = below(&it->seed, 3);

    set_length(&left, most);
    for (at = 0; at < most; at += SECTOR)
        tear_sector(left.at, &it->durable, &it->file, at, most - at < SECTOR ? most : at + SECTOR,
                    &it->seed);
    if (choice < 2)
        set_length(&left, choice ? most : least);
    else
        set_length(&left, least + below(&it->seed, (uint32_t)(most - least + 1)));
    free(it->file.at);
    it->file = left;
}

/* Makes the bytes of the file from an offset on durable. */
static inline void keep_from(struct memory *it, size_t from)
{
    set_length(&it->durable, it->file.length);
    if (from < it->file.length)
        memcpy(it->durable.at + from, it->file.at + from, it->file.length - from);
    it->changed_from = it->file.length;
}

/* Counts a call. Returns 1 if the power has failed already. */
static inline int is_off(struct memory *it)
{
    it->calls++;
    it->later_calls += it->fails_at && it->calls > it->fails_at;
    return it->fails_at && it->calls > it->fails_at;
}

/* Ends a call that has changed the file: the power may fail in it. */
static inline int end_call(struct memory *it)
{
    if (it->calls != it->fails_at)
        return 0;
    tear(it);
    return -1;
}

static int write_memory(void *context, uint64_t at, const uint8_t *bytes, size_t length)
{
    struct memory *it = context;

    if (is_off(it))
        return -1;
    if (at + length > it->file.length)
        set_length(&it->file, (size_t)at + length);
    memcpy(it->file.at + at, bytes, length);
    it->changed_from = at < it->changed_from ? (size_t)at : it->changed_from;
    return end_call(it);
}

static int cut_memory(void *context, uint64_t length)
{
    struct memory *it = context;

    if (is_off(it) || length > it->file.length)
        return -1;
    set_length(&it->file, (size_t)length);
    it->changed_from = length < it->changed_from ? (size_t)length : it->changed_from;
    return end_call(it);
}

static int sync_memory(void *context)
{
    struct memory *it = context;

    if (is_off(it) || end_call(it))
        return -1;
    keep_from(it, it->changed_from);
    return 0;
}

static int begin_memory(void *context)
{
    struct memory *it = context;

    if (is_off(it))
        return -1;
    it->drafts++;
    set_length(&it->draft, 0);
    return end_call(it);
}

static int write_draft_memory(void *context, const uint8_t *bytes, size_t length)
{
    struct memory *it = context;
    const size_t old_length = it->draft.length;

    if (is_off(it))
        return -1;
    set_length(&it->draft, old_length + length);
    memcpy(it->draft.at + old_length, bytes, length);
    return end_call(it);
}

/* A power failure leaves the old file, or the draft. */
static int exchange_memory(void *context)
{
    struct memory *it = context;

    if (is_off(it))
        return -1;
    if (it->calls == it->fails_at && below(&it->seed, 2))
        return end_call(it);
    copy_bytes(&it->file, &it->draft);
    keep_from(it, 0);
    return it->calls == it->fails_at ? -1 : 0;
}

static void close_memory(void *context)
{
    ((struct memory *)context)->closed++;
}

/* A file with these bytes, or an empty one. `room` is for the bytes of its calls. */
static inline void begin_memory_file(struct memory *it, const struct bytes *bytes, uint8_t *room,
                                     size_t room_length)
{
    memset(it, 0, sizeof *it);
    it->device = (mdl_device){ it, write_memory, cut_memory, sync_memory, begin_memory,
                               write_draft_memory, exchange_memory, close_memory, room, room_length };
    it->seed = 1;
    if (bytes)
        copy_bytes(&it->file, bytes);
    keep_from(it, 0);
}

static inline void end_memory_file(struct memory *it)
{
    free(it->file.at);
    free(it->durable.at);
    free(it->draft.at);
}

#endif
