/* Not proved. See serving.h. */
#include "serving.h"

#include <errno.h>
#include <fcntl.h>
#include <signal.h>
#include <string.h>
#include <sys/stat.h>
#include <unistd.h>

/* A signal's handler writes a byte into this pipe, which poll looks at like a socket. */
static int stop_pipe[2];

static void stop(int signal_number)
{
    int kept = errno;

    (void)signal_number;
    if (write(stop_pipe[1], "", 1) < 0)
        errno = 0; /* the pipe is full, so poll will see it anyway */
    errno = kept;
}

/* A signal that the caller ignores stays ignored: a shell starts what is in the background so, and
 * its keyboard's SIGINT is not for us. */
static int catch_signal(int signal_number)
{
    struct sigaction action;

    if (sigaction(signal_number, NULL, &action))
        return 0;
    if (action.sa_handler == SIG_IGN)
        return 1;
    memset(&action, 0, sizeof action);
    action.sa_handler = stop;
    sigemptyset(&action.sa_mask);
    return sigaction(signal_number, &action, NULL) == 0;
}

int catch_signals(void)
{
    if (pipe(stop_pipe) || fcntl(stop_pipe[1], F_SETFL, O_NONBLOCK))
        return -1;
    return catch_signal(SIGTERM) && catch_signal(SIGINT) && catch_signal(SIGHUP) ? stop_pipe[0] : -1;
}

/* A socket that nobody listens at was left by a server that was killed, and goes. */
static int remove_stale(const struct sockaddr_un *address)
{
    struct stat status;
    int probe, is_stale;

    if (lstat(address->sun_path, &status))
        return errno == ENOENT;
    probe = socket(AF_UNIX, SOCK_STREAM, 0);
    if (probe < 0)
        return 0;
    is_stale = S_ISSOCK(status.st_mode) &&
               connect(probe, (const struct sockaddr *)address, sizeof *address) &&
               errno == ECONNREFUSED;
    close(probe);
    errno = EADDRINUSE;
    return is_stale && unlink(address->sun_path) == 0;
}

int claim_path(const char *path, struct sockaddr_un *address)
{
    memset(address, 0, sizeof *address);
    address->sun_family = AF_UNIX;
    if (strlen(path) >= sizeof address->sun_path) {
        errno = ENAMETOOLONG;
        return 0;
    }
    memcpy(address->sun_path, path, strlen(path));
    return remove_stale(address);
}
