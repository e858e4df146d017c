/* Not proved. The server that holds one disk and executes what its clients send, in one thread.
 *
 *     server --socket PATH [--disk FILE] [--blocks N] [--pool N] [--profile NAME]
 *            [--seed N] [--vendor TEXT] [--product TEXT] [--revision TEXT] [--serial TEXT] [--local N]
 *
 * The disk is in memory, or FILE keeps it. Blocks and pool have to be given, unless FILE has a disk. A new
 * disk has the extended profile, unless NAME is another one. The program prints a line when it listens, and
 * ends with status 0 on SIGTERM, SIGINT or SIGHUP. A disk in memory is gone then, and one in a file is all
 * there. The socket is gone. */
#include <errno.h>
#include <stdio.h>
#include <string.h>
#include <sys/resource.h>

#include "clients.h"
#include "options.h"
#include "serving.h"

enum { OTHER_DESCRIPTORS = 16 };

/* Serves until a signal, which makes `stop` readable. Returns 0 where poll fails. */
static int serve(int stop, struct clients *clients, mdl_disk *disk)
{
    struct pollfd polls[CLIENT_POLLS + 1];

    for (;;) {
        set_client_polls(clients, polls);
        polls[CLIENT_POLLS] = (struct pollfd){ stop, POLLIN, 0 };
        if (poll(polls, CLIENT_POLLS + 1, -1) < 0) {
            if (errno == EINTR)
                continue;
            return 0;
        }
        if (polls[CLIENT_POLLS].revents)
            return 1;
        serve_clients(clients, polls, disk);
    }
}

/* With fewer descriptors accept would fail again and again, and poll return at once each time. */
static int has_descriptors(void)
{
    struct rlimit limit;

    return getrlimit(RLIMIT_NOFILE, &limit) == 0 &&
           limit.rlim_cur >= MOST_CLIENTS + OTHER_DESCRIPTORS;
}

static int fail(const char *what, const char *why)
{
    fprintf(stderr, "server: %s: %s\n", what, why);
    return 1;
}

/* Listens, serves, and clears all away. */
static int run(const struct options *options, mdl_disk *disk)
{
    static struct clients clients;
    int stop, is_served;

    if (!has_descriptors())
        return fail("descriptors", "the limit of open files is too low");
    stop = catch_signals();
    if (stop < 0)
        return fail("signals", strerror(errno));
    if (!open_clients(&clients, options->socket))
        return fail(options->socket, strerror(errno));
    printf("listens at %s\n", options->socket);
    fflush(stdout);
    is_served = serve(stop, &clients, disk);
    close_clients(&clients);
    return is_served ? 0 : fail("poll", "failed");
}

int main(int count, char **words)
{
    struct options options;
    mdl_disk disk = MDL_NONE;
    char reason[REASON_LENGTH];
    const char *word, *fault = read_options(count, words, 1, &options, &word);
    int status;

    if (fault)
        return fail(word, fault);
    if (!make_disk(&options, &disk, reason))
        return fail("the disk", reason);
    status = run(&options, &disk);
    if (mdl_close(&disk))
        status = fail(options.disk, "the file may lack a part of what was changed");
    return status;
}
