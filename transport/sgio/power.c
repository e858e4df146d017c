/* Not proved. Takes the power of the disk away and gives it back: `power`, with MDL_SOCKET in the
 * environment. Status 0, or 15 where no server does it. */
#include <string.h>
#include <unistd.h>

#include "connection.h"
#include "tell.h"

int main(void)
{
    struct reply_header reply;
    int connection = open_server("power"), error;

    if (connection < 0)
        return NO_SERVER;
    error = exchange_power_cycle(connection, &reply);
    close(connection);
    if (error)
        return fail("power", strerror(error));
    return reply.result == MDL_OK ? 0 : fail("power", "the server refuses it");
}
