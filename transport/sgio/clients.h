/* Not proved. The clients of a server: its listening socket, and a place for each connection. */
#ifndef CLIENTS_H
#define CLIENTS_H

#include <poll.h>

#include "client.h"

/* One poll for each place and one for the listening socket. */
enum { MOST_CLIENTS = 64, CLIENT_POLLS = MOST_CLIENTS + 1 };

struct clients {
    const char *path; /* or null: there is no socket */
    int listener;
    struct client all[MOST_CLIENTS];
    const struct watcher *watcher; /* or null */
};

/* Makes clients that are none, and never will be. */
void no_clients(struct clients *clients);

/* Listens at a path, only for this user. Returns 0 with errno where it can't. */
int open_clients(struct clients *clients, const char *path);

/* Writes what to poll for, and does what the clients ask for that are ready. */
void set_client_polls(const struct clients *clients, struct pollfd *polls);
void serve_clients(struct clients *clients, const struct pollfd *polls, mdl_disk *disk);

/* Closes all connections, and removes the socket. */
void close_clients(struct clients *clients);

#endif
