/* Not proved. The client's end of a connection to the server. */
#include "connection.h"

#include <errno.h>
#include <poll.h>
#include <string.h>
#include <sys/socket.h>
#include <sys/types.h>
#include <sys/un.h>
#include <time.h>
#include <unistd.h>

/* Writes the address of a path. Returns its length, or 0 where the path is too long. */
static socklen_t address_of(const char *path, struct sockaddr_un *address)
{
    size_t length = strlen(path);

    memset(address, 0, sizeof *address);
    address->sun_family = AF_UNIX;
    if (length == 0 || length >= sizeof address->sun_path)
        return 0;
    memcpy(address->sun_path, path, length);
    return (socklen_t)sizeof *address;
}

int connect_to(const char *path, int flags)
{
    struct sockaddr_un address;
    socklen_t length = address_of(path, &address);
    int connection = socket(AF_UNIX, SOCK_STREAM | flags, 0), kept;

    if (connection < 0)
        return -1;
    if (length && connect(connection, (const struct sockaddr *)&address, length) == 0)
        return connection;
    kept = length ? errno : ENAMETOOLONG;
    close(connection);
    errno = kept;
    return -1;
}

int is_connected_to(int descriptor, const char *path)
{
    struct sockaddr_un address;
    socklen_t length = sizeof address;
    int kept = errno, result;

    memset(&address, 0, sizeof address);
    result = getpeername(descriptor, (struct sockaddr *)&address, &length) == 0 &&
             address.sun_family == AF_UNIX &&
             strncmp(address.sun_path, path, sizeof address.sun_path) == 0;
    errno = kept;
    return result;
}

static int64_t nanoseconds_now(void)
{
    struct timespec now;

    clock_gettime(CLOCK_MONOTONIC, &now);
    return (int64_t)now.tv_sec * 1000000000 + now.tv_nsec;
}

/* The milliseconds until a time in nanoseconds, rounded up, so that no wait ends early. */
static int milliseconds_until(int64_t end)
{
    const int64_t rest = end - nanoseconds_now();

    return rest < 0 ? 0 : (int)((rest + 999999) / 1000000);
}

/* Waits until a connection is ready, or the time `end` in nanoseconds (-1: none) has come. Returns 0 or an
 * errno. */
static int wait_for(int connection, short events, int64_t end)
{
    struct pollfd ready = { connection, events, 0 };
    int count;

    do {
        count = poll(&ready, 1, end < 0 ? -1 : milliseconds_until(end));
    } while (count < 0 && errno == EINTR);
    return count > 0 ? 0 : count == 0 ? ETIMEDOUT : ENODEV;
}

/* The descriptor may have been made non-blocking or not; either way no call here blocks but poll. */
static int send_all(int connection, const uint8_t *bytes, size_t length, int64_t end)
{
    ssize_t count;
    int error;

    while (length > 0) {
        count = send(connection, bytes, length, MSG_DONTWAIT | MSG_NOSIGNAL);
        if (count >= 0) {
            bytes += count;
            length -= (size_t)count;
            continue;
        }
        if (errno != EAGAIN && errno != EWOULDBLOCK && errno != EINTR)
            return ENODEV;
        error = wait_for(connection, POLLOUT, end);
        if (error)
            return error;
    }
    return 0;
}

static int receive_all(int connection, uint8_t *bytes, size_t length, int64_t end)
{
    ssize_t count;
    int error;

    while (length > 0) {
        count = recv(connection, bytes, length, MSG_DONTWAIT);
        if (count > 0) {
            bytes += count;
            length -= (size_t)count;
            continue;
        }
        if (count == 0 || (errno != EAGAIN && errno != EWOULDBLOCK && errno != EINTR))
            return ENODEV;
        error = wait_for(connection, POLLIN, end);
        if (error)
            return error;
    }
    return 0;
}

/* Reads the rest of a reply of which a byte has come. `data_in` has MDL_BUFFER_LENGTH bytes. */
static int receive_reply(int connection, int64_t end, struct reply_header *reply, uint8_t *data_in)
{
    uint8_t header[REPLY_HEADER_LENGTH];
    int error = receive_all(connection, header, sizeof header, end);

    if (error)
        return error;
    if (get_reply_header(header, reply) == 0)
        return ENODEV;
    return receive_all(connection, data_in, reply->data_in_length, end);
}

/* The next tag of this process. It begins at another number than that of a process before it, whose
 * connection this one may have inherited. */
static uint8_t next_tag(void)
{
    static uint8_t last;

    if (last == 0)
        last = (uint8_t)getpid();
    last++;
    return last;
}

/* Sends a request and reads its reply. It passes over late replies to earlier requests. Part of a
 * request or of a reply would leave the connection without a known place in the stream, so it is
 * shut down then. If no byte of the reply has come in time, the connection may be used on. */
static int exchange_bytes(int connection, uint8_t *request, size_t length, int timeout,
                          struct reply_header *reply, uint8_t *data_in)
{
    static uint8_t unwanted[MDL_BUFFER_LENGTH];
    const int64_t end = timeout < 0 ? -1 : nanoseconds_now() + (int64_t)timeout * 1000000;
    const uint8_t tag = next_tag();
    int error;

    request[TAG_AT] = tag;
    error = send_all(connection, request, length, end);
    while (!error) {
        error = wait_for(connection, POLLIN, end);
        if (error == ETIMEDOUT)
            return error;
        if (!error)
            error = receive_reply(connection, end, reply, data_in ? data_in : unwanted);
        if (!error && reply->tag == tag)
            break;
    }
    if (!error && reply->data_in_length > 0 && !data_in)
        error = ENODEV;
    if (error)
        shutdown(connection, SHUT_RDWR);
    return error;
}

int exchange_command(int connection, struct exchange *exchange)
{
    static uint8_t request[MOST_REQUEST];
    const struct request_header header = { COMMAND, exchange->initiator, 0, exchange->cdb_length,
                                           exchange->data_out_length };
    size_t length = REQUEST_HEADER_LENGTH;

    put_request_header(request, &header);
    if (exchange->cdb_length > 0)
        memcpy(request + length, exchange->cdb, exchange->cdb_length);
    length += exchange->cdb_length;
    if (exchange->data_out_length > 0)
        memcpy(request + length, exchange->data_out, exchange->data_out_length);
    length += exchange->data_out_length;
    return exchange_bytes(connection, request, length, exchange->timeout, &exchange->reply,
                          exchange->data_in);
}

int exchange_power_cycle(int connection, struct reply_header *reply)
{
    const struct request_header header = { POWER_CYCLE, 0, 0, 0, 0 };
    uint8_t request[REQUEST_HEADER_LENGTH];

    put_request_header(request, &header);
    return exchange_bytes(connection, request, sizeof request, -1, reply, NULL);
}

int exchange_question(int connection, uint8_t initiator, int timeout, struct reply_header *reply)
{
    const struct request_header header = { QUESTION, initiator, 0, 0, 0 };
    uint8_t request[REQUEST_HEADER_LENGTH];

    put_request_header(request, &header);
    return exchange_bytes(connection, request, sizeof request, timeout, reply, NULL);
}

int exchange_happening(int connection, const mdl_happening *happening, int timeout,
                       struct reply_header *reply)
{
    const struct request_header header = { HAPPENING, 0, 0, 0, HAPPENING_LENGTH };
    uint8_t request[REQUEST_HEADER_LENGTH + HAPPENING_LENGTH];

    put_request_header(request, &header);
    put_happening(request + REQUEST_HEADER_LENGTH, happening);
    return exchange_bytes(connection, request, sizeof request, timeout, reply, NULL);
}
