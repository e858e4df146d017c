/* Not proved. Sends random commands and broken messages.
 *     hostile messages SEED COUNT   sends them to the server's socket, MDL_SOCKET.
 *     hostile node SEED COUNT       sends them by SG_IO, to the path of $disk, under LD_PRELOAD.
 * The disk is a base disk, which has initiators 0 to 7. The program checks the form of each reply. After all
 * of them each initiator's TEST UNIT READY has to be answered. If a reply is not as it should be, it prints a
 * line and has status 1. */
#include <errno.h>
#include <fcntl.h>
#include <scsi/sg.h>
#include <stdio.h>
#include <stdlib.h>
#include <string.h>
#include <sys/ioctl.h>
#include <sys/socket.h>
#include <unistd.h>

#include "connection.h"
#include "random.h"

enum { GUARD = 0xEE, MANY = 80, TIMEOUT = 10000, LONGEST = 120 };

static const uint8_t test_unit_ready[6];
/* The most data-out of a random command, in bytes: longer ones would take most of the time. */
enum { MOST_RANDOM_DATA_OUT = 512 * MDL_BLOCK_LENGTH };

static uint8_t request[MOST_REQUEST + 64], data_in[MDL_BUFFER_LENGTH], data[MOST_DATA_OUT + 64];
static const char *server;
static unsigned long goods, checks, conflicts, refusals;

#define WANT(condition) \
    do { \
        if (!(condition)) { \
            fprintf(stderr, "hostile, line %d: not so: %s\n", __LINE__, #condition); \
            exit(1); \
        } \
    } while (0)

static int open_connection(void)
{
    int connection = connect_to(server, 0);

    WANT(connection >= 0);
    return connection;
}

static void count_status(uint8_t status)
{
    goods += status == MDL_GOOD;
    checks += status == MDL_CHECK_CONDITION;
    conflicts += status == MDL_RESERVATION_CONFLICT;
}

/* Checks a reply, whatever was sent. */
static void look_at(const struct reply_header *reply)
{
    int is_check = reply->status == MDL_CHECK_CONDITION;
    uint8_t code = reply->sense[0] & 0x7F;

    WANT(reply->result == MDL_OK || (!reply->status && !reply->sense_length));
    WANT(reply->status == MDL_GOOD || is_check || reply->status == MDL_RESERVATION_CONFLICT);
    WANT(is_check == (reply->sense_length > 0) && (!is_check || code == 0x70 || code == 0x72));
    WANT(reply->status == MDL_GOOD || reply->data_in_length == 0);
    if (reply->result == MDL_OK)
        count_status(reply->status);
    else
        refusals++;
}

/* Sends what is any bytes, as far as the server takes them: it may have closed already. */
static void send_bytes(int connection, const uint8_t *bytes, size_t length)
{
    ssize_t count;

    while (length > 0) {
        count = send(connection, bytes, length, MSG_NOSIGNAL);
        if (count <= 0)
            return;
        bytes += count;
        length -= (size_t)count;
    }
}

static int receive_byte(int connection)
{
    uint8_t byte;
    ssize_t count = recv(connection, &byte, 1, 0);

    return count == 1 ? byte : -1;
}

/* Reads a reply, with its data-in. */
static void receive_reply(int connection, struct reply_header *reply)
{
    uint8_t header[REPLY_HEADER_LENGTH];

    WANT(recv(connection, header, sizeof header, MSG_WAITALL) == (ssize_t)sizeof header);
    WANT(get_reply_header(header, reply) != 0);
    if (reply->data_in_length > 0) /* or recv would wait for a byte all the same */
        WANT(recv(connection, data_in, reply->data_in_length, MSG_WAITALL) == (ssize_t)reply->data_in_length);
}

/* Writes a request. Initiator 8 is none. */
static size_t put_request(uint64_t *seed, uint8_t *bytes)
{
    static struct random_command command;
    struct request_header header = { COMMAND, (uint8_t)below(seed, MDL_INITIATORS), 0, 0, 0 };
    uint32_t list_length;
    uint8_t *at = bytes + REQUEST_HEADER_LENGTH;

    put_random_command(seed, MOST_RANDOM_DATA_OUT, &command);
    header.initiator = (uint8_t)(below(seed, 64) ? header.initiator : MDL_INITIATORS);
    header.tag = (uint8_t)below(seed, 256);
    header.cdb_length = command.cdb_length;
    header.data_out_length = command.data_out_length;
    put_request_header(bytes, &header);
    memcpy(at, command.cdb, command.cdb_length);
    list_length = command.data_out_length < MOST_RANDOM_LIST ? command.data_out_length : MOST_RANDOM_LIST;
    memcpy(at + command.cdb_length, command.data_out, list_length);
    return (size_t)REQUEST_HEADER_LENGTH + command.cdb_length + command.data_out_length;
}

/* A header that is no request's is answered by 255, and the connection is closed. */
static void send_malformed(uint64_t *seed)
{
    int connection = open_connection(), at;
    struct request_header header;

    do {
        for (at = 0; at < REQUEST_HEADER_LENGTH; at++)
            request[at] = (uint8_t)below(seed, below(seed, 2) ? 4 : 256);
    } while (get_request_header(request, &header) != 0);
    send_bytes(connection, request, REQUEST_HEADER_LENGTH + below(seed, 64));
    WANT(receive_byte(connection) == RESULT_MALFORMED);
    for (at = 1; at < REPLY_HEADER_LENGTH; at++)
        WANT(receive_byte(connection) == 0);
    WANT(receive_byte(connection) < 0);
    close(connection);
}

/* A client that closes in the middle of a request, or after it without reading the reply. */
static void send_and_close(uint64_t *seed)
{
    int connection = open_connection();
    size_t length = put_request(seed, request);

    send_bytes(connection, request, below(seed, 2) ? length : below(seed, (uint32_t)length));
    close(connection);
}

/* Two requests at once are answered one after the other. */
static void send_two(uint64_t *seed, int connection)
{
    struct reply_header reply;
    static uint8_t two[2 * sizeof request];
    size_t length = put_request(seed, two);

    length += put_request(seed, two + length);
    if (length > 65536)
        return;
    send_bytes(connection, two, length);
    receive_reply(connection, &reply);
    look_at(&reply);
    receive_reply(connection, &reply);
    look_at(&reply);
}

static void send_one(uint64_t *seed, int connection)
{
    size_t length = put_request(seed, request);
    struct reply_header reply;

    send_bytes(connection, request, length);
    receive_reply(connection, &reply);
    WANT((reply.result == MDL_NO_INITIATOR) == (request[1] >= MDL_INITIATORS));
    WANT(reply.tag == request[TAG_AT]);
    WANT(reply.result <= MDL_NO_INITIATOR);
    look_at(&reply);
}

static void execute(int connection, uint8_t initiator, const uint8_t *cdb, uint8_t length,
                    struct reply_header *reply)
{
    struct exchange exchange = { .initiator = initiator, .cdb = cdb, .cdb_length = length,
                                 .data_in = data_in, .timeout = TIMEOUT };

    WANT(exchange_command(connection, &exchange) == 0);
    *reply = exchange.reply;
    look_at(reply);
}

/* Something happens, or is refused for the right reason. */
static void send_happening(uint64_t *seed, int connection)
{
    static const mdl_happening heal = { .kind = MDL_DISARM_ALL };
    mdl_happening happening;
    const mdl_error result = put_random_happening(seed, &happening);
    struct reply_header reply;

    WANT(exchange_happening(connection, &happening, TIMEOUT, &reply) == 0 && reply.result == result);
    look_at(&reply);
    /* no command meets the fault, so each reply is one of a sound disk */
    WANT(exchange_happening(connection, &heal, TIMEOUT, &reply) == 0 && reply.result == MDL_OK);
}

/* A request cut after each of its bytes lets nothing happen; sent byte by byte it does. */
static void cut_a_happening(void)
{
    static const uint8_t reset[] = { HAPPENING, 0, 0, 0, 0, 0, 0, HAPPENING_LENGTH,
                                     0, 0, 0, MDL_LOGICAL_UNIT_RESET, [72] = 0 };
    struct reply_header reply;
    int connection = open_connection(), other;
    size_t cut, at;

    execute(connection, 0, test_unit_ready, 6, &reply);
    for (cut = 1; cut < sizeof reset; cut++) {
        other = open_connection();
        send_bytes(other, reset, cut);
        WANT(shutdown(other, SHUT_WR) == 0 && receive_byte(other) < 0);
        close(other);
    }
    execute(connection, 0, test_unit_ready, 6, &reply);
    WANT(reply.status == MDL_GOOD);
    for (at = 0; at < sizeof reset; at++)
        send_bytes(connection, reset + at, 1);
    receive_reply(connection, &reply);
    WANT(reply.result == MDL_OK && reply.status == 0 && reply.data_in_length == 0);
    execute(connection, 0, test_unit_ready, 6, &reply);
    WANT(reply.sense[12] == 0x29 && reply.sense[13] == 3);
    close(connection);
}

/* A WRITE of block 7 that is cut after each of its bytes writes nothing; sent byte by byte it does. */
static void cut_a_write(void)
{
    static const uint8_t write_7[10] = { 0x2A, 0, 0, 0, 0, 7, 0, 0, 1, 0 };
    static const uint8_t status_7[16] = { 0x9E, 0x12, 0, 0, 0, 0, 0, 0, 0, 7, 0, 0, 0, 24 };
    const struct request_header header = { COMMAND, 0, 0, sizeof write_7, MDL_BLOCK_LENGTH };
    const size_t length = REQUEST_HEADER_LENGTH + sizeof write_7 + MDL_BLOCK_LENGTH;
    struct reply_header reply;
    int connection = open_connection(), other;
    size_t cut, at;

    memset(request, 0x77, length);
    put_request_header(request, &header);
    memcpy(request + REQUEST_HEADER_LENGTH, write_7, sizeof write_7);
    execute(connection, 0, test_unit_ready, 6, &reply);
    for (cut = 1; cut < length; cut++) {
        other = open_connection();
        send_bytes(other, request, cut);
        WANT(shutdown(other, SHUT_WR) == 0 && receive_byte(other) < 0); /* so the server has seen it */
        close(other);
    }
    execute(connection, 0, status_7, 16, &reply);
    WANT(reply.status == MDL_GOOD && data_in[20] == 1);
    for (at = 0; at < length; at++)
        send_bytes(connection, request + at, 1);
    receive_reply(connection, &reply);
    WANT(reply.status == MDL_GOOD);
    execute(connection, 0, status_7, 16, &reply);
    WANT(reply.status == MDL_GOOD && data_in[20] == 0);
    close(connection);
}

/* More clients than there are places: some find their connection closed, and the others go on. */
static void open_many(void)
{
    int connections[MANY], at, refused = 0;
    uint8_t header[REQUEST_HEADER_LENGTH];
    const struct request_header command = { COMMAND, 0, 0, 0, 0 };

    put_request_header(header, &command);
    for (at = 0; at < MANY; at++)
        connections[at] = open_connection();
    for (at = 0; at < MANY; at++) {
        send_bytes(connections[at], header, sizeof header);
        refused += receive_byte(connections[at]) < 0;
    }
    WANT(refused > 0 && refused < MANY);
    for (at = 0; at < MANY; at++)
        close(connections[at]);
}

/* A client that asks for much and reads nothing keeps no other from its replies. When it reads, it
 * finds all its own, each once and whole. The system decides how many of them the socket holds. */
static void ask_and_read_late(int count)
{
    static const uint8_t read_256[10] = { 0x28, 0, 0, 0, 0, 0, 0, 1, 0, 0 };
    const struct request_header header = { COMMAND, 1, 0, sizeof read_256, 0 };
    int late = open_connection(), other = open_connection(), at;
    struct reply_header reply;

    execute(other, 1, test_unit_ready, 6, &reply);
    put_request_header(request, &header);
    memcpy(request + REQUEST_HEADER_LENGTH, read_256, sizeof read_256);
    for (at = 0; at < count; at++)
        send_bytes(late, request, REQUEST_HEADER_LENGTH + sizeof read_256);
    for (at = 0; at < 100; at++)
        execute(other, 2, test_unit_ready, 6, &reply);
    for (at = 0; at < count; at++) {
        receive_reply(late, &reply);
        WANT(reply.status == MDL_GOOD && reply.data_in_length == 256 * MDL_BLOCK_LENGTH);
    }
    WANT(recv(late, data_in, 1, MSG_DONTWAIT) < 0 && errno == EAGAIN);
    close(late);
    close(other);
}

/* The longest request: a WRITE(10) of 4,096 blocks in a CDB of 255 bytes, which the disk refuses for its
 * TRANSFER LENGTH. One byte more of data-out is no request. */
static void send_longest(void)
{
    struct request_header header = { COMMAND, 3, 0, MOST_CDB, MOST_DATA_OUT };
    struct reply_header reply;
    int connection = open_connection();

    execute(connection, 3, test_unit_ready, 6, &reply);
    memset(request, 0, sizeof request);
    put_request_header(request, &header);
    memcpy(request + REQUEST_HEADER_LENGTH, "\x2A\0\0\0\0\0\0\x10\0", 10);
    send_bytes(connection, request, MOST_REQUEST);
    receive_reply(connection, &reply);
    WANT(reply.result == MDL_OK && reply.status == MDL_CHECK_CONDITION);
    WANT(reply.sense[12] == 0x24 && reply.sense[17] == 7);
    header.data_out_length++;
    put_request_header(request, &header);
    send_bytes(connection, request, REQUEST_HEADER_LENGTH);
    WANT(receive_byte(connection) == RESULT_MALFORMED);
    close(connection);
}

/* At the end, after unit attentions, of which there are 16, each initiator is ready. No other is there. */
static void ask_all(void)
{
    struct reply_header reply;
    int connection = open_connection(), at;
    uint8_t initiator;

    for (at = 0; at <= UINT8_MAX; at++) {
        WANT(exchange_question(connection, (uint8_t)at, TIMEOUT, &reply) == 0 && reply.status == 0);
        WANT(reply.result == (at < (int)MDL_INITIATORS ? MDL_OK : MDL_NO_INITIATOR));
    }
    for (initiator = 0; initiator < MDL_INITIATORS; initiator++) {
        for (at = 0; at < 17; at++)
            execute(connection, initiator, test_unit_ready, 6, &reply);
        WANT(reply.status == MDL_GOOD);
    }
    close(connection);
}

static void run_messages(uint64_t seed, unsigned long count)
{
    int connection, asked;

    cut_a_write();
    cut_a_happening();
    open_many();
    send_longest();
    for (asked = 1; asked < 20; asked++)
        ask_and_read_late(asked);
    connection = open_connection();
    while (count--) {
        switch (below(&seed, 20)) {
        case 0: send_malformed(&seed); break;
        case 1: send_and_close(&seed); break;
        case 2: send_two(&seed, connection); break;
        case 3:
            if (below(&seed, 100) == 0) {
                struct reply_header reply;

                WANT(exchange_power_cycle(connection, &reply) == 0 && reply.result == MDL_OK);
            } else if (below(&seed, 4) == 0) {
                send_happening(&seed, connection);
            }
            break;
        default: send_one(&seed, connection);
        }
    }
    close(connection);
    ask_all();
}

/* Fills a header of SG_IO for a command. If it has data-out, the transfer is to the disk. */
static void put_header(uint64_t *seed, struct random_command *command, sg_io_hdr_t *header)
{
    memset(header, 0, sizeof *header);
    header->interface_id = 'S';
    header->dxfer_direction = command->data_out_length ? SG_DXFER_TO_DEV : SG_DXFER_FROM_DEV;
    header->cmd_len = command->cdb_length < 6 || command->cdb_length > 252 ? 16 : command->cdb_length;
    header->mx_sb_len = (unsigned char)below(seed, 33);
    header->dxfer_len = command->data_out_length ? command->data_out_length : below(seed, 4096);
    header->dxferp = data;
    header->cmdp = command->cdb;
    header->timeout = TIMEOUT;
    if (below(seed, 8) == 0 && !command->data_out_length) {
        header->dxfer_direction = SG_DXFER_NONE;
        header->dxfer_len = 0;
        header->dxferp = NULL;
    }
}

/* Makes one header in ten such that it is refused. Returns the errno that it has to end with. */
static int spoil_header(uint64_t *seed, sg_io_hdr_t *header)
{
    switch (below(seed, 60)) {
    case 0: header->interface_id = 'Q'; return ENOSYS;
    case 1: header->cmd_len = (unsigned char)below(seed, 6); return EMSGSIZE;
    case 2: header->cmdp = NULL; return EMSGSIZE;
    case 3: header->dxfer_direction = -9; return EINVAL;
    case 4: header->dxfer_direction = SG_DXFER_TO_DEV; header->dxferp = NULL; return EINVAL;
    case 5:
        header->dxfer_direction = SG_DXFER_FROM_DEV;
        header->dxfer_len = MOST_DATA_OUT + 1;
        return ENOMEM;
    default: return 0;
    }
}

/* Checks what sg promises of a header whose command has ended. */
static void look_at_header(const sg_io_hdr_t *header, const uint8_t *sense)
{
    int is_check = header->status == MDL_CHECK_CONDITION, has_sense = header->sb_len_wr > 0;
    uint32_t moved = header->dxfer_len - (uint32_t)header->resid;
    size_t at;

    WANT(header->status == MDL_GOOD || is_check || header->status == MDL_RESERVATION_CONFLICT);
    WANT(header->masked_status == header->status >> 1 && header->host_status == 0);
    WANT(has_sense == (is_check && header->mx_sb_len > 0) && header->sb_len_wr <= header->mx_sb_len);
    WANT(header->driver_status == (has_sense ? 8 : 0));
    WANT((header->info & SG_INFO_OK_MASK) == (header->status ? SG_INFO_CHECK : SG_INFO_OK));
    WANT(header->resid >= 0 && (uint32_t)header->resid <= header->dxfer_len);
    WANT(!has_sense || (sense[0] & 0x7F) == 0x70 || sense[0] == 0x72);
    for (at = header->sb_len_wr; at < 64; at++)
        WANT(sense[at] == GUARD);
    if (header->dxfer_direction == SG_DXFER_FROM_DEV)
        for (at = moved; at < moved + 64; at++)
            WANT(data[at] == GUARD);
}

static void send_header(uint64_t *seed, int node)
{
    static struct random_command command;
    uint8_t sense[64];
    sg_io_hdr_t header;
    size_t guarded;
    int error, result;

    put_random_command(seed, MOST_RANDOM_DATA_OUT, &command);
    put_header(seed, &command, &header);
    error = spoil_header(seed, &header);
    header.sbp = sense;
    memset(sense, GUARD, sizeof sense);
    guarded = header.dxfer_len + 64 < sizeof data ? header.dxfer_len + 64 : sizeof data;
    memset(data, GUARD, guarded);
    if (header.dxfer_direction == SG_DXFER_TO_DEV)
        memcpy(data, command.data_out, sizeof command.data_out);
    errno = 0;
    result = ioctl(node, SG_IO, &header);
    WANT(error ? result < 0 && errno == error : result == 0);
    if (error) {
        refusals++;
        return;
    }
    look_at_header(&header, sense);
    count_status(header.status);
}

static void run_node(uint64_t seed, unsigned long count)
{
    const char *path = getenv("disk");
    char initiator[] = "0";
    int node;

    WANT(path != NULL);
    node = open(path, O_RDWR | O_NONBLOCK);
    WANT(node >= 0 && fcntl(node, F_SETFL, O_NONBLOCK) == 0);
    while (count--) {
        initiator[0] = (char)('0' + below(&seed, MDL_INITIATORS));
        WANT(setenv("MDL_INITIATOR", initiator, 1) == 0);
        send_header(&seed, node);
    }
    close(node);
    ask_all();
}

int main(int count, char **words)
{
    server = getenv("MDL_SOCKET");
    if (count != 4 || !server)
        return 2;
    alarm(LONGEST); /* if a reply does not come, SIGALRM ends this */
    if (strcmp(words[1], "messages") == 0)
        run_messages(strtoull(words[2], NULL, 10), strtoul(words[3], NULL, 10));
    else
        run_node(strtoull(words[2], NULL, 10), strtoul(words[3], NULL, 10));
    printf("%lu good, %lu check condition, %lu reservation conflict, %lu refused\n", goods, checks,
           conflicts, refusals);
    return goods && checks && conflicts && refusals ? 0 : 1;
}
