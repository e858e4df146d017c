/* Not proved. See clients.h. */
#include "clients.h"

#include <fcntl.h>
#include <sys/socket.h>
#include <sys/stat.h>
#include <unistd.h>

#include "serving.h"

enum { BACKLOG = 64 };

static int listen_at(const char *path)
{
    struct sockaddr_un address;
    mode_t kept;
    int listener, failed;

    if (!claim_path(path, &address))
        return -1;
    listener = socket(AF_UNIX, SOCK_STREAM, 0);
    if (listener < 0 || fcntl(listener, F_SETFL, O_NONBLOCK))
        return -1;
    kept = umask(077);
    failed = bind(listener, (const struct sockaddr *)&address, sizeof address);
    umask(kept);
    return failed || listen(listener, BACKLOG) ? -1 : listener;
}

void no_clients(struct clients *clients)
{
    int at;

    clients->path = NULL;
    clients->listener = -1;
    clients->watcher = NULL;
    for (at = 0; at < MOST_CLIENTS; at++)
        clients->all[at].socket = -1;
}

int open_clients(struct clients *clients, const char *path)
{
    no_clients(clients);
    clients->path = path;
    clients->listener = listen_at(path);
    return clients->listener >= 0;
}

/* A client for which there is no place or no memory finds its connection closed. */
static void accept_client(struct clients *clients)
{
    int at, socket = accept(clients->listener, NULL, NULL);

    if (socket < 0)
        return;
    for (at = 0; at < MOST_CLIENTS; at++)
        if (clients->all[at].socket < 0) {
            if (!open_client(&clients->all[at], socket))
                break;
            return;
        }
    close(socket);
}

/* While a reply is on its way, no further request of its client is read. poll skips -1. */
void set_client_polls(const struct clients *clients, struct pollfd *polls)
{
    const struct client *client;
    int at;

    for (at = 0; at < MOST_CLIENTS; at++) {
        client = &clients->all[at];
        polls[at].fd = client->socket;
        polls[at].events = client->socket >= 0 && client->to_send ? POLLOUT : POLLIN;
        polls[at].revents = 0;
    }
    polls[MOST_CLIENTS] = (struct pollfd){ clients->listener, POLLIN, 0 };
}

void serve_clients(struct clients *clients, const struct pollfd *polls, mdl_disk *disk)
{
    int at;

    for (at = 0; at < MOST_CLIENTS; at++)
        if (polls[at].revents && !serve_client(&clients->all[at], disk, clients->watcher))
            close_client(&clients->all[at]);
    if (polls[MOST_CLIENTS].revents)
        accept_client(clients);
}

void close_clients(struct clients *clients)
{
    int at;

    for (at = 0; at < MOST_CLIENTS; at++)
        if (clients->all[at].socket >= 0)
            close_client(&clients->all[at]);
    if (!clients->path)
        return;
    close(clients->listener);
    unlink(clients->path);
}
