/* Not proved. Serves a disk to guests of qemu, by vhost-user-scsi.
 *
 *     serve [--disk FILE] [--blocks N] [--pool N] [--profile NAME] [--seed N] [--vendor TEXT]
 *           [--product TEXT] [--revision TEXT] [--serial TEXT] [--local N] [--socket PATH]
 *           [--trace PATH] SOCKET ..
 *
 * Each SOCKET is an initiator of the disk, from 0 on, and serves one guest at a time. An extended disk has at
 * most 64 of them, and a base disk 8. PATH of --socket is a socket for `happen`, `power` and `join` of
 * transport/sgio. The file PATH of --trace gets a line for each command of a guest, and keeps what it has.
 * The disk is in memory, or FILE keeps it. Blocks and pool have to be given, unless FILE has a disk. A new
 * disk has the extended profile, unless NAME is another one. The program prints a line for each socket when
 * it listens, and ends with status 0 on SIGTERM, SIGINT or SIGHUP. A disk in memory is gone then, and one in
 * a file is all there. The sockets are gone. */
#include <errno.h>
#include <inttypes.h>
#include <poll.h>
#include <sched.h>
#include <stdio.h>
#include <stdlib.h>
#include <string.h>
#include <sys/stat.h>
#include <unistd.h>

#include <rte_eal.h>

#include "events.h"
#include "guests.h"
#include "held.h"
#include "requests.h"
#include "serving.h"
#include "sgio/clients.h"
#include "sgio/options.h"

/* How long to wait until guests can be told of used buffers that could not be told at once. */
enum { MILLISECONDS_TO_CALL = 1 };

static int fail(const char *what, const char *why)
{
    fprintf(stderr, "serve: %s: %s\n", what, why);
    return 1;
}

/* Moves the sockets and the option --trace out of the words, which are pairs of another option and a value
 * then. It counts all sockets, but only MDL_MOST_INITIATORS have a port. Returns null, or what is wrong. */
static const char *take_sockets(int *count, char **words, struct unit *unit, const char **trace)
{
    struct port *port;
    int at, kept = 1;

    for (at = 1; at < *count; at++)
        if (strcmp(words[at], "--trace") == 0 && at + 1 < *count)
            *trace = words[++at];
        else if (strncmp(words[at], "--", 2) == 0) {
            words[kept++] = words[at];
            if (at + 1 < *count)
                words[kept++] = words[++at];
        } else if (unit->port_count++ < MDL_MOST_INITIATORS) {
            port = &unit->ports[unit->port_count - 1];
            port->initiator = unit->port_count - 1;
            port->path = words[at];
        }
    *count = kept;
    return unit->port_count > 0 ? NULL : "there is no socket";
}

/* Returns 1 if the disk has an initiator for each socket, and otherwise says how many it has. */
static int has_initiators(const struct unit *unit, uint32_t initiators)
{
    char text[64];

    if (unit->port_count <= initiators)
        return 1;
    snprintf(text, sizeof text, "the disk has no more than %" PRIu32 " initiators", initiators);
    fail("SOCKET", text);
    return 0;
}

/* Opens the file of the trace. Each of its lines is there as soon as the command is answered. */
static int open_trace(struct unit *unit, const char *path)
{
    unit->trace = path ? fopen(path, "ae") : NULL;
    if (unit->trace)
        setvbuf(unit->trace, NULL, _IOLBF, 0);
    return !path || unit->trace;
}

/* The initiators of the disk that the options ask for. A file may have a disk that has fewer. */
static uint32_t asked_initiators(const struct options *options)
{
    return options->profile == MDL_PROFILE_BASE ? MDL_INITIATORS : MDL_MOST_INITIATORS;
}

/* DPDK wants a folder, into which it puts nothing here. With its own choice two users would be in the way of
 * one another. */
static int begin_in_folder(int count, char **words)
{
    static const char *const made[] = { "/dpdk/rte", "/dpdk", "" };
    char folder[] = "/tmp/mehdalung-XXXXXX", path[sizeof folder + sizeof "/dpdk/rte"];
    int is_begun;
    unsigned at;

    if (!mkdtemp(folder) || setenv("RUNTIME_DIRECTORY", folder, 1))
        return 0;
    is_begun = rte_eal_init(count, words) >= 0;
    for (at = 0; at < sizeof made / sizeof made[0]; at++) {
        snprintf(path, sizeof path, "%s%s", folder, made[at]);
        rmdir(path);
    }
    return is_begun;
}

/* Begins DPDK without huge pages, devices and shared files, so that every user may. It would keep this
 * thread on one processor. */
static int begin_dpdk(void)
{
    static char core[32], *words[] = { "serve", "--no-huge", "--no-shconf", "--no-pci", "--no-telemetry",
                                       "--iova-mode=va", "--log-level=error", core, NULL };
    cpu_set_t processors;
    int first = 0, is_begun;

    if (sched_getaffinity(0, sizeof processors, &processors))
        return 0;
    while (first < CPU_SETSIZE && !CPU_ISSET(first, &processors))
        first++;
    snprintf(core, sizeof core, "--lcores=0@%d", first);
    is_begun = begin_in_folder(sizeof words / sizeof words[0] - 1, words);
    return sched_setaffinity(0, sizeof processors, &processors) == 0 && is_begun;
}

/* What happens by a client of transport/sgio. */
static void note(void *unit, const mdl_happening *happening)
{
    note_happening(unit, happening);
}

/* A client of transport/sgio has taken registrations by PREEMPT AND ABORT. */
static void end_preempted(void *unit, uint64_t initiators)
{
    end_held_of(unit, initiators, VIRTIO_SCSI_S_ABORTED);
}

/* Serves until a signal, which makes `stop` readable. Returns 0 if poll fails. */
static int serve(struct guests *guests, struct clients *clients, int stop)
{
    struct pollfd polls[CLIENT_POLLS + 2];
    int is_more = 0, is_told = 1;

    for (;;) {
        set_client_polls(clients, polls);
        polls[CLIENT_POLLS] = (struct pollfd){ stop, POLLIN, 0 };
        polls[CLIENT_POLLS + 1] = (struct pollfd){ guests->kicks, POLLIN, 0 };
        if (poll(polls, CLIENT_POLLS + 2, is_more ? 0 : is_told ? -1 : MILLISECONDS_TO_CALL) < 0) {
            if (errno == EINTR)
                continue;
            return 0;
        }
        if (polls[CLIENT_POLLS].revents)
            return 1;
        pthread_mutex_lock(&guests->lock);
        serve_clients(clients, polls, &guests->unit->disk);
        take_kicks(guests);
        is_more = serve_round(guests->unit);
        is_told = call_guests(guests);
        pthread_mutex_unlock(&guests->lock);
    }
}

static int listen_at_all(struct guests *guests)
{
    struct unit *unit = guests->unit;
    struct sockaddr_un address;
    const char *failed;
    mode_t kept;
    unsigned at;

    for (at = 0; at < unit->port_count; at++)
        if (!claim_path(unit->ports[at].path, &address))
            return fail(unit->ports[at].path, strerror(errno));
    kept = umask(077);
    failed = listen_for_guests(guests);
    umask(kept);
    if (failed)
        return fail(failed, "the socket can't be made");
    for (at = 0; at < unit->port_count; at++)
        printf("listens at %s: initiator %u\n", unit->ports[at].path, at);
    fflush(stdout);
    return 0;
}

/* Without a path there are no clients. */
static int listen_for_clients(struct clients *clients, struct unit *unit, const char *path)
{
    static struct watcher watcher;

    watcher = (struct watcher){ note, end_preempted, unit };
    if (!path)
        no_clients(clients);
    else if (open_clients(clients, path))
        printf("listens at %s: transport/sgio\n", path);
    else
        return fail(path, strerror(errno));
    clients->watcher = &watcher;
    return 0;
}

/* Listens, serves, and clears all away. */
static int run(struct unit *unit, const char *path)
{
    static struct guests guests;
    static struct clients clients;
    int stop = catch_signals(), is_served = 0;

    if (stop < 0)
        return fail("signals", strerror(errno));
    if (!begin_dpdk())
        return fail("DPDK", "does not begin");
    if (!begin_guests(&guests, unit))
        return fail("epoll", strerror(errno));
    if (listen_for_clients(&clients, unit, path))
        return 1;
    if (!listen_at_all(&guests)) {
        is_served = serve(&guests, &clients, stop);
        if (!is_served)
            fail("poll", "failed");
    }
    end_guests(&guests);
    close_clients(&clients);
    return !is_served;
}

int main(int count, char **words)
{
    static struct unit unit;
    struct options options;
    char reason[REASON_LENGTH];
    const char *trace = NULL, *word = "SOCKET", *fault = take_sockets(&count, words, &unit, &trace);
    uint32_t initiators = 0;
    int status;

    if (!fault)
        fault = read_options(count, words, 0, &options, &word);
    if (fault)
        return fail(word, fault);
    if (!has_initiators(&unit, asked_initiators(&options)))
        return 1;
    if (!open_trace(&unit, trace))
        return fail(trace, strerror(errno));
    if (!make_disk(&options, &unit.disk, reason))
        return fail("the disk", reason);
    mdl_initiators(&unit.disk, &initiators);
    status = has_initiators(&unit, initiators) ? run(&unit, options.socket) : 1;
    if (mdl_close(&unit.disk))
        status = fail(options.disk, "the file may lack a part of what was changed");
    return status;
}
