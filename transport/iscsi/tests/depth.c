/* Measures random READ(10) and WRITE(10) of 4 KiB over iSCSI, on full logical units:
 *     depth NAME URL [NAME URL ..]
 *
 * First it writes every block of each logical unit, 4 KiB at a time, in random order. Then one
 * session to a logical unit keeps 1 or 16 commands under way, for a tenth of a second. The logical
 * units take turns, over many rounds. A line has a logical unit's commands a second, the median of
 * its rounds. The first lines have the ratio of the first logical unit to another: the median of
 * the ratios in each round, and the quartiles. */
#include <inttypes.h>
#include <stdio.h>
#include <stdlib.h>
#include <time.h>

#include "session.h"
#include "tests/below.h"

enum { BLOCKS = 8, MOST_UNITS = 4, ROUNDS = 51, FILL_DEPTH = 16 };

#define SECOND UINT64_C(1000000000)
#define MEASURED (SECOND / 10)

/* What is measured: an operation code, and how many commands are under way. */
static const struct load {
    const char *name;
    uint8_t code;
    unsigned depth;
} loads[] = {
    { "READ, 1", 0x28, 1 }, { "READ, 16", 0x28, 16 }, { "WRITE, 1", 0x2A, 1 },
    { "WRITE, 16", 0x2A, 16 }
};

enum { LOADS = sizeof loads / sizeof loads[0] };

struct unit {
    const char *name;
    struct session *session;
    uint32_t places; /* of 4 KiB each */
    double rates[LOADS][ROUNDS];
};

/* Commands to a logical unit. Each reply sends the next, until the end. */
struct stream {
    const struct unit *unit;
    uint8_t code;
    const uint32_t *order; /* the places in the order of the commands, or null for random places */
    uint64_t end;          /* a time; with an order, the number of places */
    uint64_t sent, replies;
};

static struct unit units[MOST_UNITS];
static uint8_t data[BLOCKS * MDL_BLOCK_LENGTH];
static uint64_t state = 1;

static uint64_t now(void)
{
    struct timespec time;

    clock_gettime(CLOCK_MONOTONIC, &time);
    return (uint64_t)time.tv_sec * SECOND + (uint64_t)time.tv_nsec;
}

static void fail(const char *name, const char *what)
{
    fprintf(stderr, "%s: %s\n", name, what);
    exit(1);
}

static struct request request_at(uint8_t code, uint32_t place)
{
    uint32_t address = place * BLOCKS;

    return (struct request){
        .cdb = { code, 0, (uint8_t)(address >> 24), (uint8_t)(address >> 16),
                 (uint8_t)(address >> 8), (uint8_t)address, [8] = BLOCKS },
        .cdb_length = 10, .direction = code == 0x28 ? DATA_IN : DATA_OUT,
        .length = sizeof data, .data_out = data
    };
}

static int is_at_end(const struct stream *stream)
{
    return (stream->order ? stream->sent : now()) >= stream->end;
}

static void receive(int status, void *context);

static void send_next(struct stream *stream)
{
    uint32_t place = stream->order ? stream->order[stream->sent]
                                   : below(&state, stream->unit->places);
    struct request request = request_at(stream->code, place);

    if (session_send(stream->unit->session, &request, data, receive, stream))
        fail(stream->unit->name, "a command can't be sent");
    stream->sent++;
}

static void receive(int status, void *context)
{
    struct stream *stream = context;

    if (status != MDL_GOOD)
        fail(stream->unit->name, "a command failed");
    stream->replies++;
    if (!is_at_end(stream))
        send_next(stream);
}

/* Keeps `depth` commands under way until the end, and waits for all replies. */
static void run(struct stream *stream, unsigned depth)
{
    while (stream->sent < depth && !is_at_end(stream))
        send_next(stream);
    while (stream->replies < stream->sent)
        if (session_serve(stream->unit->session))
            fail(stream->unit->name, "the session is lost");
}

/* Commands a second. */
static double measure(const struct unit *unit, const struct load *load)
{
    uint64_t begin = now();
    struct stream stream = { .unit = unit, .code = load->code, .end = begin + MEASURED };

    run(&stream, load->depth);
    return (double)stream.replies * SECOND / (double)(now() - begin);
}

static void shuffle(uint32_t *order, uint32_t count)
{
    uint32_t at, other;

    for (at = 0; at < count; at++) {
        other = below(&state, at + 1);
        order[at] = order[other];
        order[other] = at;
    }
}

static void fill(const struct unit *unit)
{
    uint32_t *order = malloc(unit->places * sizeof *order);
    struct stream stream = { .unit = unit, .code = 0x2A, .order = order, .end = unit->places };

    if (!order)
        fail(unit->name, "out of memory");
    shuffle(order, unit->places);
    run(&stream, FILL_DEPTH);
    free(order);
}

/* Logs in, clears unit attentions, and asks for the capacity (READ CAPACITY(10)). */
static void open_unit(struct unit *unit, const char *name, const char *url)
{
    static struct answer answer;
    const struct request request = { .cdb = { 0x25 }, .cdb_length = 10, .direction = DATA_IN,
                                     .length = 8 };
    const uint8_t *last = answer.data_in;

    unit->name = name;
    unit->session = session_open(url, 0, 0);
    if (!unit->session)
        exit(1);
    do
        session_execute(unit->session, &request, &answer);
    while (answer.status == MDL_CHECK_CONDITION);
    if (answer.status != MDL_GOOD)
        fail(name, "no capacity");
    unit->places = ((uint32_t)last[0] << 24 | (uint32_t)last[1] << 16 | (uint32_t)last[2] << 8
                    | last[3]) / BLOCKS;
}

static int compare(const void *left, const void *right)
{
    double difference = *(const double *)left - *(const double *)right;

    return (difference > 0) - (difference < 0);
}

static void print_rates(struct unit *unit)
{
    int load;

    printf("%-24s", unit->name);
    for (load = 0; load < LOADS; load++) {
        qsort(unit->rates[load], ROUNDS, sizeof(double), compare);
        printf("%18.0f", unit->rates[load][ROUNDS / 2]);
    }
    putchar('\n');
}

/* The first logical unit beside another, before their rates are sorted. */
static void print_ratios(const struct unit *other)
{
    double ratios[ROUNDS];
    int load, round;

    printf("ratio to %-15s", other->name);
    for (load = 0; load < LOADS; load++) {
        for (round = 0; round < ROUNDS; round++)
            ratios[round] = units[0].rates[load][round] / other->rates[load][round];
        qsort(ratios, ROUNDS, sizeof(double), compare);
        printf("%5.2f (%.2f-%.2f)", ratios[ROUNDS / 2], ratios[ROUNDS / 4],
               ratios[3 * ROUNDS / 4]);
    }
    putchar('\n');
}

int main(int count, char **words)
{
    int number = 0, load, round, at;

    for (at = 1; at + 1 < count && number < MOST_UNITS; at += 2)
        open_unit(&units[number++], words[at], words[at + 1]);
    for (at = 0; at < number; at++)
        fill(&units[at]);
    for (round = 0; round < ROUNDS; round++)
        for (load = 0; load < LOADS; load++)
            for (at = 0; at < number; at++)
                units[at].rates[load][round] = measure(&units[at], &loads[load]);
    printf("%-24s", "commands a second");
    for (load = 0; load < LOADS; load++)
        printf("%18s", loads[load].name);
    putchar('\n');
    for (at = 1; at < number; at++)
        print_ratios(&units[at]);
    for (at = 0; at < number; at++)
        print_rates(&units[at]);
    return 0;
}
