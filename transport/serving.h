/* Not proved. What servers at a Unix socket do alike. */
#ifndef SERVING_H
#define SERVING_H

#include <sys/socket.h>
#include <sys/un.h>

/* Writes the address of a path, and removes a socket there that nobody listens at: a server was killed and
 * has left it. Returns 0, with errno, if something else is there, or if the path is too long for a
 * socket. */
int claim_path(const char *path, struct sockaddr_un *address);

/* Makes SIGTERM, SIGINT and SIGHUP readable as bytes of a pipe. A signal that the caller ignores stays
 * ignored. Returns the pipe's end, or -1 with errno. */
int catch_signals(void);

#endif
