/* Not proved. One client of the server: its request as far as it has arrived, and its reply as far as
 * it has been sent. */
#ifndef CLIENT_H
#define CLIENT_H

#include "message.h"

struct client {
    int socket;             /* or -1: this place is free */
    int is_last;            /* the connection is closed after this reply */
    uint8_t *request;       /* MOST_REQUEST bytes */
    size_t received, wanted;
    struct request_header header; /* of the request, once it has arrived */
    uint8_t *reply;         /* MOST_REPLY bytes */
    size_t sent, to_send;   /* a reply is on its way if to_send is not 0 */
};

/* Is told of what clients have let happen to the disk, and of initiators in a mask that have lost their
 * registrations by a client's PREEMPT AND ABORT. */
struct watcher {
    void (*happened)(void *context, const mdl_happening *happening);
    void (*preempted)(void *context, uint64_t initiators);
    void *context;
};

/* Takes memory for a client. Returns 0 if memory is refused, and then takes none. */
int open_client(struct client *client, int socket);

/* Closes its connection and frees its place. A part of a request that has arrived is dropped. */
void close_client(struct client *client);

/* Goes on with a client whose socket is ready: receives, executes what is whole, sends. Returns 0
 * if the client is gone, or if it sent something that is no request and has its reply. `watcher` may be
 * null. */
int serve_client(struct client *client, mdl_disk *disk, const struct watcher *watcher);

#endif
