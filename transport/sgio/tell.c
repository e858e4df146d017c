/* Not proved. What `power` and `happen` do alike. */
#include "tell.h"

#include <errno.h>
#include <stdio.h>
#include <stdlib.h>
#include <string.h>

#include "connection.h"

int fail(const char *program, const char *why)
{
    fprintf(stderr, "%s: %s\n", program, why);
    return NO_SERVER;
}

int open_server(const char *program)
{
    const char *path = getenv("MDL_SOCKET");
    int connection = path ? connect_to(path, 0) : -1;

    if (connection < 0)
        fail(program, path ? strerror(errno) : "MDL_SOCKET is not set");
    return connection;
}
