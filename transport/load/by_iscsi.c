/* Not proved. By iSCSI, over libiscsi. Each logical unit has a session of its own. */
#include <stdio.h>

#include "session.h"
#include "way.h"

static void *open_unit(const char *address)
{
    static unsigned sessions;
    char url[512];

    snprintf(url, sizeof url, "iscsi://%s", address);
    sessions++;
    return session_open(url, sessions, sessions);
}

static void receive(int status, void *context)
{
    struct transfer *transfer = context;

    transfer->done(transfer, status == MDL_GOOD);
}

static int send_transfer(void *unit, struct transfer *transfer)
{
    struct request request = { .cdb_length = CDB_LENGTH, .direction = transfer->writes ? DATA_OUT : DATA_IN,
                               .length = (size_t)transfer->count * BLOCK_LENGTH,
                               .data_out = transfer->data };

    put_cdb(request.cdb, transfer);
    return session_send(unit, &request, transfer->data, receive, transfer);
}

static int serve(void *unit)
{
    return session_serve(unit);
}

const struct way by_iscsi = { "iscsi://", MOST_DEPTH, open_unit, send_transfer, serve };
