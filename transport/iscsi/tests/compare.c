/* Sends random and malformed commands to a target, and compares each reply with the library's:
 *     compare URL BLOCKS POOL COUNT SEED
 *
 * The disk at URL is a new base disk and has these sizes. Eight initiators send COUNT commands. They have
 * operation codes of all kinds with random fields, or wholly random CDBs. Parameter lists are
 * random, cut or too long. Some data has the wrong direction, and some Expected Data Transfer
 * Lengths are too short or too long. Between commands initiators reset the logical unit or the
 * target, log out, or lose their connection, and log in again. A disk of the library executes the
 * same list, and mdl_happen tells it of the resets and lost sessions. Status, sense data, data-in
 * and the residual count have to agree at each command. Each command has to get a reply. */
#include <stdio.h>
#include <stdlib.h>
#include <string.h>

#include "session.h"
#include "tests/below.h"

enum {
    MOST_DATA_OUT = 4 * MDL_BLOCK_LENGTH,
    ADDRESSES = 48, /* blocks at the beginning, so that commands meet */
    KEYS = 6,
    COMMANDS_OF_AN_EVENT = 50,
    MODE_HEADER_6 = 4,
    MODE_HEADER_10 = 8,
    MODE_PAGE = 12
};

static const char *url;
static struct session *sessions[MDL_INITIATORS];
static mdl_disk disk = MDL_NONE;
static uint64_t state;

static int once_in(uint32_t count)
{
    return below(&state, count) == 0;
}

static void random_bytes(uint8_t *bytes, size_t length)
{
    while (length--)
        *bytes++ = (uint8_t)below(&state, 256);
}

/* For each command of docs/PROFILE.md: its operation code, the byte where a short length ends, and
 * the byte where a short address ends. 0 stands for none. */
static const struct shape {
    uint8_t opcode, action, length_at, address_at;
    enum direction direction;
    uint8_t unit; /* bytes of data-out that the length counts; 0: one block, whatever the length */
} shapes[] = {
    { 0x00, 0, 0, 0, NO_DATA, 1 },     { 0x03, 0, 4, 0, DATA_IN, 1 },
    { 0x08, 0, 4, 3, DATA_IN, 1 },     { 0x0A, 0, 4, 3, DATA_OUT, 2 },
    { 0x12, 0, 4, 0, DATA_IN, 1 },     { 0x15, 0x10, 4, 0, DATA_OUT, 1 },
    { 0x1A, 0, 4, 0, DATA_IN, 1 },     { 0x25, 0, 0, 0, DATA_IN, 1 },
    { 0x28, 0, 8, 5, DATA_IN, 1 },     { 0x2A, 0, 8, 5, DATA_OUT, 2 },
    { 0x35, 0, 8, 5, NO_DATA, 1 },     { 0x41, 8, 8, 5, DATA_OUT, 0 },
    { 0x42, 0, 8, 0, DATA_OUT, 1 },    { 0x55, 0x10, 8, 0, DATA_OUT, 1 },
    { 0x5A, 0, 8, 0, DATA_IN, 1 },     { 0x5E, 0, 8, 0, DATA_IN, 1 },
    { 0x5E, 1, 8, 0, DATA_IN, 1 },     { 0x5E, 3, 8, 0, DATA_IN, 1 },
    { 0x5F, 0, 8, 0, DATA_OUT, 1 },    { 0x5F, 1, 8, 0, DATA_OUT, 1 },
    { 0x5F, 2, 8, 0, DATA_OUT, 1 },    { 0x5F, 4, 8, 0, DATA_OUT, 1 },
    { 0x5F, 6, 8, 0, DATA_OUT, 1 },    { 0x88, 0, 13, 9, DATA_IN, 1 },
    { 0x8A, 0, 13, 9, DATA_OUT, 2 },   { 0x93, 8, 13, 9, DATA_OUT, 0 },
    { 0x9E, 0x10, 13, 0, DATA_IN, 1 }, { 0x9E, 0x12, 13, 9, DATA_IN, 1 },
    { 0xA0, 0, 9, 0, DATA_IN, 1 }
};

enum { SHAPES = sizeof shapes / sizeof *shapes };

/* A control mode page, which asks for sense data in descriptor format or not. */
static void control_page(uint8_t *page)
{
    page[0] = page[1] = 0x0A;
    page[2] = once_in(2) ? 4 : 0;
}

/* A parameter list that could be one of PERSISTENT RESERVE OUT, UNMAP or MODE SELECT. */
static void fill_list(const struct request *request, uint8_t *list)
{
    memset(list, 0, MOST_DATA_OUT);
    switch (request->cdb[0]) {
    case 0x5F:
        list[7] = (uint8_t)below(&state, KEYS);
        list[15] = (uint8_t)below(&state, KEYS);
        list[20] = (uint8_t)once_in(8);
        break;
    case 0x42:
        list[3] = (uint8_t)(16 * below(&state, 4));
        list[15] = (uint8_t)below(&state, ADDRESSES);
        list[19] = (uint8_t)below(&state, 8);
        break;
    case 0x15: control_page(list + MODE_HEADER_6); break;
    case 0x55: control_page(list + MODE_HEADER_10); break;
    default: memset(list, (int)below(&state, 256), MOST_DATA_OUT);
    }
}

/* A command as it should be, with the length that it asks for. */
static void well_formed(struct request *request)
{
    const struct shape *shape = &shapes[below(&state, SHAPES)];

    memset(request->cdb, 0, sizeof request->cdb);
    request->cdb[0] = shape->opcode;
    request->cdb[1] = shape->action;
    if (shape->opcode == 0x5F) {
        request->cdb[2] = (uint8_t)(1 + below(&state, 8));
        request->cdb[8] = 24;
    } else if (shape->length_at) {
        uint32_t bound = shape->direction == DATA_OUT ? 5 : 256;

        request->cdb[shape->length_at] = (uint8_t)below(&state, bound);
        if (shape->opcode == 0x42)
            request->cdb[shape->length_at] = (uint8_t)(8 + 16 * below(&state, 4));
        if (shape->opcode == 0x15)
            request->cdb[shape->length_at] = MODE_HEADER_6 + MODE_PAGE;
        if (shape->opcode == 0x55)
            request->cdb[shape->length_at] = MODE_HEADER_10 + MODE_PAGE;
    }
    if (shape->address_at)
        request->cdb[shape->address_at] = (uint8_t)below(&state, ADDRESSES);
    request->direction = shape->direction;
    request->length = shape->length_at ? request->cdb[shape->length_at] : 8;
    if (shape->direction == DATA_OUT && shape->unit != 1)
        request->length = shape->unit ? request->length * MDL_BLOCK_LENGTH : MDL_BLOCK_LENGTH;
    else if (shape->opcode == 0x08 || shape->opcode == 0x28 || shape->opcode == 0x88)
        request->length *= MDL_BLOCK_LENGTH;
}

/* Puts a fault into a command or its parameter list. */
static void deform(struct request *request, uint8_t *list)
{
    switch (below(&state, 6)) {
    case 0: request->cdb[below(&state, MOST_CDB)] ^= (uint8_t)(1u << below(&state, 8)); break;
    case 1: request->cdb[below(&state, MOST_CDB)] = (uint8_t)below(&state, 256); break;
    case 2: random_bytes(request->cdb, MOST_CDB); break;
    case 3: request->direction = (enum direction)below(&state, 3); break;
    case 4: request->length = below(&state, MOST_DATA_OUT); break;
    default: random_bytes(list + below(&state, 32), 1 + below(&state, 16));
    }
}

/* A command, and whether it has faults: two of three have, one fault to three. */
static int next_request(struct request *request)
{
    static uint8_t list[MOST_DATA_OUT];
    uint32_t faults = once_in(3) ? 0 : 1 + below(&state, 3), left;

    request->cdb_length = MOST_CDB;
    request->data_out = list;
    well_formed(request);
    fill_list(request, list);
    for (left = faults; left > 0; left--)
        deform(request, list);
    if (request->direction == NO_DATA)
        request->length = 0;
    if (request->direction == DATA_OUT && request->length > MOST_DATA_OUT)
        request->length = MOST_DATA_OUT;
    return faults > 0;
}

/* The residual count of a request that the library has replied to. tgtd's counts have 32 bits with a
 * sign. */
static long residual_of(const struct request *request, const mdl_reply *reply)
{
    uint64_t asked = reply->data_out_length < INT32_MAX ? reply->data_out_length : INT32_MAX;

    switch (request->direction) {
    case DATA_IN: return (long)request->length - (long)reply->data_in_length;
    case DATA_OUT: return (long)request->length - (long)asked;
    default: return 0;
    }
}

/* The reply that an initiator should get to a request which the library has replied to. */
static int agrees(const struct request *request, const mdl_reply *reply, const uint8_t *data_in,
                  const struct answer *answer)
{
    size_t room = request->direction == DATA_IN ? request->length : 0;
    size_t length = reply->data_in_length < room ? reply->data_in_length : room;

    return answer->status == reply->status && answer->sense_length == reply->sense_length
           && memcmp(answer->sense, reply->sense, reply->sense_length) == 0
           && answer->data_in_length == length && memcmp(answer->data_in, data_in, length) == 0
           && answer->residual == residual_of(request, reply);
}

static void print_difference(unsigned long number, const struct request *request,
                             const mdl_reply *reply, const struct answer *answer)
{
    size_t at;

    printf("command %lu:", number);
    for (at = 0; at < MOST_CDB; at++)
        printf(" %02x", request->cdb[at]);
    printf(", direction %d, length %zu\n", (int)request->direction, request->length);
    printf("  library: status %02x, %zu bytes of data-in\n", reply->status, reply->data_in_length);
    printf("  target:  status %02x, %zu bytes of data-in, residual %ld\n", (unsigned)answer->status,
           answer->data_in_length, answer->residual);
}

/* Any two initiator ports differ in name or ISID, and some differ in only one of them. */
static void log_in(unsigned port)
{
    sessions[port] = session_open(url, port / 2, port % 2);
    if (!sessions[port])
        exit(1);
}

/* An INQUIRY each, so that the initiators have their numbers in this order. */
static void log_in_all(void)
{
    static const uint8_t inquiry[6] = { 0x12 };
    static struct answer answer;
    struct request request = request_of(inquiry, sizeof inquiry);
    unsigned port;

    for (port = 0; port < MDL_INITIATORS; port++) {
        log_in(port);
        session_execute(sessions[port], &request, &answer);
    }
}

/* An initiator sends a reset, or its session is lost and another one begins. Returns 1 if the
 * target or the library refuses it. */
static int let_happen(unsigned port)
{
    static const mdl_happening_kind kinds[] = {
        [LOGICAL_UNIT_RESET] = MDL_LOGICAL_UNIT_RESET, [TARGET_WARM_RESET] = MDL_TARGET_RESET,
        [TARGET_COLD_RESET] = MDL_TARGET_RESET
    };
    mdl_happening happening = { .kind = MDL_NEXUS_LOSS, .initiator = port };
    uint32_t event = below(&state, 6);

    if (event <= TARGET_COLD_RESET) {
        happening.kind = kinds[event];
        return session_reset(sessions[port], (enum reset)event) || mdl_happen(&disk, &happening);
    }
    if (event == 3)
        session_log_out(sessions[port]);
    else
        session_drop(sessions[port]);
    log_in(port);
    return mdl_happen(&disk, &happening) != MDL_OK;
}

static int compare(unsigned long count)
{
    static uint8_t data_in[MDL_BUFFER_LENGTH];
    static struct answer answer;
    unsigned long number, faulty = 0, events = 0, statuses[256] = { 0 };
    struct request request;
    mdl_reply reply;

    for (number = 1; number <= count; number++) {
        uint32_t initiator = below(&state, MDL_INITIATORS);
        size_t data_out;

        if (once_in(COMMANDS_OF_AN_EVENT)) {
            events++;
            if (let_happen(below(&state, MDL_INITIATORS)))
                return 1;
        }
        faulty += (unsigned long)next_request(&request);
        data_out = request.direction == DATA_OUT ? request.length : 0;
        if (mdl_execute(&disk, initiator, request.cdb, MOST_CDB, request.data_out, data_out,
                        data_in, sizeof data_in, &reply))
            return 1;
        session_execute(sessions[initiator], &request, &answer);
        if (!agrees(&request, &reply, data_in, &answer)) {
            print_difference(number, &request, &reply, &answer);
            return 1;
        }
        statuses[reply.status]++;
    }
    printf("%lu commands, %lu of them with faults, %lu resets and lost sessions, ", count, faulty,
           events);
    printf("and no difference: ");
    printf("%lu GOOD, %lu CHECK CONDITION, %lu RESERVATION CONFLICT\n", statuses[MDL_GOOD],
           statuses[MDL_CHECK_CONDITION], statuses[MDL_RESERVATION_CONFLICT]);
    return 0;
}

int main(int count, char **words)
{
    int status;
    unsigned port;

    if (count != 6)
        return 2;
    state = strtoull(words[5], NULL, 10) + 1;
    if (mdl_make(&disk, strtoull(words[2], NULL, 10), (uint32_t)strtoul(words[3], NULL, 10), NULL))
        return 1;
    url = words[1];
    log_in_all();
    status = compare(strtoul(words[4], NULL, 10));
    for (port = 0; port < MDL_INITIATORS; port++)
        session_log_out(sessions[port]);
    mdl_free(&disk);
    return status;
}
