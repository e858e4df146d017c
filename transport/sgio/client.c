/* Not proved. One client of the server. No call here waits: what can't be done now is done when poll
 * says that it can. */
#include "client.h"

#include <errno.h>
#include <stdlib.h>
#include <string.h>
#include <sys/socket.h>
#include <sys/types.h>
#include <unistd.h>

#include "preempting.h"

enum progress { WHOLE, TO_COME, GONE };

int open_client(struct client *client, int socket)
{
    uint8_t *request = malloc(MOST_REQUEST), *reply = malloc(MOST_REPLY);

    if (!request || !reply) {
        free(request);
        free(reply);
        return 0;
    }
    memset(client, 0, sizeof *client);
    client->socket = socket;
    client->request = request;
    client->reply = reply;
    client->wanted = REQUEST_HEADER_LENGTH;
    return 1;
}

void close_client(struct client *client)
{
    close(client->socket);
    free(client->request);
    free(client->reply);
    client->socket = -1;
}

/* Says what it means that recv or send moved no byte. */
static enum progress progress_of_error(void)
{
    return errno == EAGAIN || errno == EWOULDBLOCK || errno == EINTR ? TO_COME : GONE;
}

/* Receives up to the end of the request and no byte of the next one. */
static enum progress receive_request(struct client *client)
{
    ssize_t length;

    while (client->received < client->wanted) {
        length = recv(client->socket, client->request + client->received,
                      client->wanted - client->received, MSG_DONTWAIT);
        if (length <= 0)
            return length < 0 ? progress_of_error() : GONE;
        client->received += (size_t)length;
        if (client->received == REQUEST_HEADER_LENGTH) {
            client->wanted = get_request_header(client->request, &client->header);
            client->is_last = client->wanted == 0;
        }
    }
    return WHOLE;
}

static mdl_error let_happen(mdl_disk *disk, const mdl_happening *happening, const struct watcher *watcher)
{
    mdl_error error = mdl_happen(disk, happening);

    if (!error && watcher)
        watcher->happened(watcher->context, happening);
    return error;
}

static mdl_error execute_command(struct client *client, mdl_disk *disk, const struct watcher *watcher,
                                 mdl_reply *reply)
{
    const struct request_header *request = &client->header;
    const uint8_t *cdb = client->request + REQUEST_HEADER_LENGTH;
    int preempts = watcher && is_preempt_and_abort(cdb, request->cdb_length);
    uint64_t before = preempts ? registered_mask(disk) : 0;
    mdl_error error = mdl_execute(disk, request->initiator, cdb, request->cdb_length,
                                  cdb + request->cdb_length, request->data_out_length,
                                  client->reply + REPLY_HEADER_LENGTH, MDL_BUFFER_LENGTH, reply);

    if (preempts)
        watcher->preempted(watcher->context, before & ~registered_mask(disk));
    return error;
}

static mdl_error find_initiator(mdl_disk *disk, uint8_t initiator)
{
    uint32_t count = 0;
    mdl_error error = mdl_initiators(disk, &count);

    return error ? error : initiator < count ? MDL_OK : MDL_NO_INITIATOR;
}

/* Executes a whole request, and leaves its reply to be sent, if it has one. */
static void execute(struct client *client, mdl_disk *disk, const struct watcher *watcher)
{
    const struct request_header *request = &client->header;
    struct reply_header header;
    mdl_happening happening = { .kind = MDL_POWER_CYCLE };
    mdl_reply reply;

    memset(&header, 0, sizeof header);
    memset(&reply, 0, sizeof reply);
    if (client->is_last)
        header.result = RESULT_MALFORMED;
    else if (request->kind == POWER_CYCLE)
        header.result = (uint8_t)let_happen(disk, &happening, watcher);
    else if (request->kind == HAPPENING) {
        get_happening(client->request + REQUEST_HEADER_LENGTH, &happening);
        header.result = (uint8_t)let_happen(disk, &happening, watcher);
    } else if (request->kind == QUESTION)
        header.result = (uint8_t)find_initiator(disk, request->initiator);
    else
        header.result = (uint8_t)execute_command(client, disk, watcher, &reply);
    header.status = reply.status;
    header.tag = client->is_last ? 0 : request->tag;
    header.sense_length = reply.sense_length;
    memcpy(header.sense, reply.sense, MDL_SENSE_LENGTH);
    header.data_in_length = (uint32_t)reply.data_in_length;
    header.data_out_length =
        reply.data_out_length < UINT32_MAX ? (uint32_t)reply.data_out_length : UINT32_MAX;
    put_reply_header(client->reply, &header);
    client->sent = 0;
    client->to_send = reply.status == MDL_NO_REPLY ? 0 : REPLY_HEADER_LENGTH + reply.data_in_length;
}

static enum progress send_reply(struct client *client)
{
    ssize_t length;

    while (client->sent < client->to_send) {
        length = send(client->socket, client->reply + client->sent, client->to_send - client->sent,
                      MSG_DONTWAIT | MSG_NOSIGNAL);
        if (length < 0)
            return progress_of_error();
        client->sent += (size_t)length;
    }
    client->to_send = 0;
    client->received = 0;
    client->wanted = REQUEST_HEADER_LENGTH;
    return WHOLE;
}

/* One request at most, so that a client that sends without a pause keeps no other waiting. */
int serve_client(struct client *client, mdl_disk *disk, const struct watcher *watcher)
{
    enum progress progress;

    if (client->to_send == 0) {
        progress = receive_request(client);
        if (progress != WHOLE)
            return progress != GONE;
        execute(client, disk, watcher);
    }
    progress = send_reply(client);
    return progress == TO_COME || (progress == WHOLE && !client->is_last);
}
