/* Not proved. Measures READ(10) and WRITE(10) of full logical units, over one transport or another:
 *     transports SECONDS BLOCKS NAME ADDRESS PEER [NAME ADDRESS PEER ..]
 *
 * Each logical unit has this many blocks. ADDRESS says how a program reaches it:
 *     iscsi://..     by iSCSI
 *     scsi:SOCKET    as a virtual machine reaches a device of vhost-user-scsi
 *     blk:SOCKET     the same, of vhost-user-blk
 *     sg:OBJECT      by the ioctl SG_IO of a shared object, which waits for its reply
 * PEER is the NAME of the logical unit with which it is compared, or `-`.
 *
 * First it writes every block of each, 4 KiB at a time in random order, and reads some of them. Then come
 * transfers of 4 or of 128 KiB, at random or ascending addresses, with 1 or 16 under way. The logical units
 * take turns of a tenth of a second, until each has had SECONDS. A line has commands a second, the median of
 * the turns. After the number of a logical unit with a peer comes its ratio to the peer, the median of the
 * ratios in each turn. */
#include <stdint.h>
#include <stdio.h>
#include <stdlib.h>
#include <string.h>
#include <time.h>

#include "memory.h"
#include "tests/below.h"
#include "way.h"

enum {
    MOST_UNITS = 8,
    MOST_SECONDS = 60,
    TURNS_A_SECOND = 10,
    MOST_TURNS = MOST_SECONDS * TURNS_A_SECOND,
    SHORT = 8,      /* blocks of the short transfers, and of those that fill a logical unit */
    LONG = 256,
    CELLS = 16,
    READ_AGAIN = 1000,
    MOST_ATTENTIONS = 8,
    NO_REPLY_YET = -1
};

#define SECOND UINT64_C(1000000000)

/* What is measured. */
struct cell {
    int writes, is_ascending;
    uint32_t count; /* of blocks */
    unsigned depth;
};

struct unit {
    const char *name;
    const struct way *way;
    void *handle;
    const struct unit *peer; /* or null */
    uint32_t next;           /* the block of the next ascending transfer */
    double rates[MOST_TURNS];
};

/* Transfers to a logical unit. Each reply sends the next, until the end. */
struct stream {
    struct unit *unit;
    const struct cell *cell;
    const uint32_t *order; /* which transfers of the cell's length, or null */
    uint64_t end;          /* a time; with an order, the number of transfers */
    uint64_t sent, replies;
    int is_stamped;        /* each block has its number in it */
};

static struct unit units[MOST_UNITS];
static unsigned unit_count, turns;
static uint32_t blocks;
static struct transfer transfers[MOST_DEPTH];
static uint64_t seed = 1;

static uint64_t now(void)
{
    struct timespec time;

    clock_gettime(CLOCK_MONOTONIC, &time);
    return (uint64_t)time.tv_sec * SECOND + (uint64_t)time.tv_nsec;
}

static void fail(const char *name, const char *what)
{
    fprintf(stderr, "transports: %s: %s\n", name, what);
    exit(1);
}

static uint32_t next_block(struct stream *stream)
{
    struct unit *unit = stream->unit;
    uint32_t count = stream->cell->count, block = unit->next;

    if (stream->order)
        return stream->order[stream->sent] * count;
    if (!stream->cell->is_ascending)
        return below(&seed, blocks / count) * count;
    unit->next = blocks - block < 2 * count ? 0 : block + count;
    return block;
}

/* Writes the number of each block into the block, or looks for it there. */
static int stamp(const struct transfer *transfer)
{
    uint32_t at, block;

    for (at = 0; at < transfer->count; at++) {
        block = transfer->block + at;
        if (transfer->writes)
            memcpy(transfer->data + at * BLOCK_LENGTH, &block, sizeof block);
        else if (memcmp(transfer->data + at * BLOCK_LENGTH, &block, sizeof block))
            return 0;
    }
    return 1;
}

static void receive(struct transfer *transfer, int is_good);

static void send_next(struct stream *stream, struct transfer *transfer)
{
    transfer->writes = stream->cell->writes;
    transfer->block = next_block(stream);
    transfer->count = stream->cell->count;
    transfer->context = stream;
    transfer->done = receive;
    if (stream->is_stamped && transfer->writes)
        stamp(transfer);
    stream->sent++;
    if (stream->unit->way->send(stream->unit->handle, transfer))
        fail(stream->unit->name, "a command can't be sent");
}

static int is_at_end(const struct stream *stream)
{
    return (stream->order ? stream->sent : now()) >= stream->end;
}

static void receive(struct transfer *transfer, int is_good)
{
    struct stream *stream = transfer->context;

    if (!is_good)
        fail(stream->unit->name, "a command failed");
    if (stream->is_stamped && !transfer->writes && !stamp(transfer))
        fail(stream->unit->name, "a block is not what was written");
    stream->replies++;
    if (!is_at_end(stream))
        send_next(stream, transfer);
}

/* Keeps transfers under way until the end, and waits for all replies. */
static void run(struct stream *stream)
{
    const struct way *way = stream->unit->way;
    unsigned depth = stream->cell->depth < way->depth ? stream->cell->depth : way->depth;

    while (stream->sent < depth && !is_at_end(stream))
        send_next(stream, &transfers[stream->sent]);
    while (stream->replies < stream->sent)
        if (way->serve(stream->unit->handle))
            fail(stream->unit->name, "no reply");
}

/* Commands a second. */
static double measure(struct unit *unit, const struct cell *cell)
{
    uint64_t begin = now();
    struct stream stream = { .unit = unit, .cell = cell, .end = begin + SECOND / TURNS_A_SECOND };

    run(&stream);
    return (double)stream.replies * SECOND / (double)(now() - begin);
}

static void shuffle(uint32_t *order, uint32_t count)
{
    uint32_t at, other;

    for (at = 0; at < count; at++) {
        other = below(&seed, at + 1);
        order[at] = order[other];
        order[other] = at;
    }
}

/* Writes all blocks, and reads some. */
static void fill(struct unit *unit)
{
    struct cell cell = { .writes = 1, .count = SHORT, .depth = MOST_DEPTH };
    uint32_t places = blocks / SHORT, *order = malloc(places * sizeof *order);
    struct stream stream = { .unit = unit, .cell = &cell, .order = order, .end = places, .is_stamped = 1 };

    if (!order)
        fail(unit->name, "out of memory");
    shuffle(order, places);
    run(&stream);
    cell.writes = 0;
    stream.sent = stream.replies = 0;
    stream.end = places < READ_AGAIN ? places : READ_AGAIN;
    run(&stream);
    free(order);
}

static void note(struct transfer *transfer, int is_good)
{
    *(int *)transfer->context = is_good;
}

/* The first commands report unit attentions. */
static void make_ready(struct unit *unit)
{
    struct transfer transfer = { .count = 1, .data = transfers[0].data, .done = note };
    int is_good = 0, tries;

    transfer.context = &is_good;
    for (tries = 0; is_good != 1 && tries < MOST_ATTENTIONS; tries++) {
        is_good = NO_REPLY_YET;
        if (unit->way->send(unit->handle, &transfer))
            fail(unit->name, "a command can't be sent");
        while (is_good == NO_REPLY_YET)
            if (unit->way->serve(unit->handle))
                fail(unit->name, "no reply");
    }
    if (is_good != 1)
        fail(unit->name, "it does not become ready");
}

static void open_unit(struct unit *unit, const char *name, const char *address)
{
    static const struct way *const ways[] = { &by_iscsi, &by_node, &by_vhost_scsi, &by_vhost_blk };
    size_t at, length;

    unit->name = name;
    for (at = 0; at < sizeof ways / sizeof *ways; at++) {
        length = strlen(ways[at]->scheme);
        if (strncmp(address, ways[at]->scheme, length) == 0) {
            unit->way = ways[at];
            unit->handle = unit->way->open(address + length);
        }
    }
    if (!unit->handle)
        fail(address, "it can't be reached");
    make_ready(unit);
}

static const struct unit *find_unit(const char *name)
{
    unsigned at;

    for (at = 0; at < unit_count; at++)
        if (strcmp(units[at].name, name) == 0)
            return &units[at];
    fail(name, "there is no such logical unit");
    return NULL;
}

static int compare(const void *left, const void *right)
{
    double difference = *(const double *)left - *(const double *)right;

    return (difference > 0) - (difference < 0);
}

static double median(const double *numbers)
{
    static double sorted[MOST_TURNS];

    memcpy(sorted, numbers, turns * sizeof *sorted);
    qsort(sorted, turns, sizeof *sorted, compare);
    return sorted[turns / 2];
}

static void print_ratio(const struct unit *unit)
{
    static double ratios[MOST_TURNS];
    unsigned turn;

    for (turn = 0; turn < turns; turn++)
        ratios[turn] = unit->rates[turn] / unit->peer->rates[turn];
    printf("%7.2f", median(ratios));
}

static void print_head(void)
{
    unsigned at;

    printf("%-28s", "commands a second");
    for (at = 0; at < unit_count; at++) {
        printf("%11s", units[at].name);
        if (units[at].peer)
            printf("%7s", "ratio");
    }
    putchar('\n');
    fflush(stdout);
}

/* A way that does not have the depth of a cell has no number in it. */
static void print_number(const struct unit *unit, const struct cell *cell)
{
    int is_measured = unit->way->depth >= cell->depth;

    if (is_measured)
        printf("%11.0f", median(unit->rates));
    else
        printf("%11s", "-");
    if (is_measured && unit->peer && unit->peer->way->depth >= cell->depth)
        print_ratio(unit);
    else if (unit->peer)
        printf("%7s", "-");
}

static void print_line(const struct cell *cell)
{
    unsigned at;

    printf("%-5s %3u KiB %-10s depth %2u", cell->writes ? "WRITE" : "READ", cell->count / 2,
           cell->is_ascending ? "ascending" : "random", cell->depth);
    for (at = 0; at < unit_count; at++)
        print_number(&units[at], cell);
    putchar('\n');
    fflush(stdout);
}

static void measure_cell(const struct cell *cell)
{
    unsigned at, turn;

    for (at = 0; at < unit_count; at++)
        units[at].next = 0;
    for (turn = 0; turn < turns; turn++)
        for (at = 0; at < unit_count; at++)
            if (units[at].way->depth >= cell->depth)
                units[at].rates[turn] = measure(&units[at], cell);
    print_line(cell);
}

static struct cell cell_of(unsigned number)
{
    return (struct cell){ .writes = number >> 3 & 1, .count = number >> 2 & 1 ? LONG : SHORT,
                          .is_ascending = number >> 1 & 1, .depth = number & 1 ? MOST_DEPTH : 1 };
}

int main(int count, char **words)
{
    unsigned at, seconds = count > 2 ? (unsigned)strtoul(words[1], NULL, 10) : 0;
    struct cell cell;

    blocks = count > 2 ? (uint32_t)strtoul(words[2], NULL, 10) : 0;
    unit_count = count > 2 ? (unsigned)(count - 3) / 3 : 0;
    if (seconds < 1 || seconds > MOST_SECONDS || blocks < LONG || unit_count < 1 || unit_count > MOST_UNITS ||
        (count - 3) % 3)
        fail("usage", "SECONDS BLOCKS NAME ADDRESS PEER ..");
    turns = seconds * TURNS_A_SECOND;
    for (at = 0; at < MOST_DEPTH; at++) {
        transfers[at].slot = at;
        transfers[at].data = take_memory(LONG * BLOCK_LENGTH);
        if (!transfers[at].data)
            fail("memory", "there is none");
    }
    for (at = 0; at < unit_count; at++) {
        open_unit(&units[at], words[3 + 3 * at], words[4 + 3 * at]);
        fill(&units[at]);
    }
    for (at = 0; at < unit_count; at++)
        if (strcmp(words[5 + 3 * at], "-") != 0)
            units[at].peer = find_unit(words[5 + 3 * at]);
    print_head();
    for (at = 0; at < CELLS; at++) {
        cell = cell_of(at);
        measure_cell(&cell);
    }
    return 0;
}
