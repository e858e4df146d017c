/* Not proved. Lets something happen to the disk, with MDL_SOCKET in the environment. The words are
 * those of a script's line on an extended disk (docs/SCRIPT.md), which the proved library reads:
 *
 *     happen power                    takes the power away and gives it back, as `power` does
 *     happen reset                    resets the logical unit
 *     happen reset target             resets the target
 *     happen nexus I                  initiator I loses its I_T nexus
 *     happen grow N                   the disk has N blocks from then on
 *     happen attention CODE [I ...]   initiators, by default all, get the unit attention with this
 *                                     code, such as 2Ah/06h
 *     happen fault PLACE WHAT [OPTION ...]   arms a fault, such as `fault arrival busy times 2`
 *     happen heal [N]                 takes all faults away, or the one with a number
 *
 * An initiator is one of the disk's: 0 to 7 of a base disk, and 0 to 63 of an extended disk. Status 0; 1 if
 * the words are none of these, or if the disk refuses what they ask for; 15 where no server does it. */
#include <stdio.h>
#include <stdlib.h>
#include <string.h>
#include <unistd.h>

#include "connection.h"
#include "tell.h"

enum { REFUSED = 1 };

/* What each verb takes, and what that is. The help of some verbs ends with the last initiator of the disk. */
static const struct {
    const char *verb, *operands, *help;
    int ends_with_initiator;
} verbs[] = {
    { "power", "", "", 0 },
    { "reset", " [target]", "", 0 },
    { "nexus", " I", ", an initiator from 0 to ", 1 },
    { "grow", " N", ", a number of blocks from 1 to 2^40", 0 },
    { "attention", " CODE [I ...]", ", a code such as 2Ah/06h and initiators from 0 to ", 1 },
    { "fault", " PLACE WHAT [OPTION ...]", ", as docs/SCRIPT.md says", 0 },
    { "heal", " [N]", ", the number of a fault from 0 to 7", 0 },
};
enum { VERBS = sizeof verbs / sizeof verbs[0] };

/* The words with a blank between two. Returns null if there is no memory. */
static char *join_words(int count, char **words)
{
    size_t length = 1;
    char *text;
    int at;

    for (at = 0; at < count; at++)
        length += strlen(words[at]) + 1;
    text = calloc(length, 1);
    for (at = 0; text && at < count; at++)
        strcat(strcat(text, at ? " " : ""), words[at]);
    return text;
}

static int print_verbs(void)
{
    size_t at;

    fputs("usage: happen", stderr);
    for (at = 0; at < VERBS; at++)
        fprintf(stderr, "%s %s%s", at ? " |" : "", verbs[at].verb, verbs[at].operands);
    fputc('\n', stderr);
    return REFUSED;
}

/* The last initiator of the disk, or of an extended disk if no server answers. */
static unsigned last_initiator(void)
{
    const char *path = getenv("MDL_SOCKET");
    int connection = path ? connect_to(path, 0) : -1, is_base = 0;
    struct reply_header reply;

    if (connection >= 0) {
        is_base = exchange_question(connection, MDL_MOST_INITIATORS - 1, -1, &reply) == 0 &&
                  reply.result == MDL_NO_INITIATOR;
        close(connection);
    }
    return (is_base ? MDL_INITIATORS : MDL_MOST_INITIATORS) - 1;
}

/* The verb of words that are a usage fault, or that name an initiator that the disk does not have. */
static int print_usage(const char *text)
{
    size_t at, length;

    text += strspn(text, " \t");
    length = strcspn(text, " \t");
    for (at = 0; at < VERBS; at++)
        if (strlen(verbs[at].verb) == length && memcmp(text, verbs[at].verb, length) == 0) {
            fprintf(stderr, "usage: happen %s%s%s", verbs[at].verb, verbs[at].operands, verbs[at].help);
            if (verbs[at].ends_with_initiator)
                fprintf(stderr, "%u", last_initiator());
            fputc('\n', stderr);
        }
    return REFUSED;
}

/* Why the words ask for nothing. */
static int refuse_words(const char *text, mdl_error error)
{
    switch (error) {
    case MDL_UNKNOWN_VERB: return print_verbs();
    case MDL_USAGE: return print_usage(text);
    case MDL_TOO_MANY_WORDS: fail("happen", "there are more than 64 words"); return REFUSED;
    default: fail("happen", "a byte is neither printable ASCII nor a tab"); return REFUSED;
    }
}

/* Asks the server for what the words ask, and says why the disk refuses it. */
static int let_happen(const char *text, const mdl_happening *happening)
{
    struct reply_header reply;
    int connection = open_server("happen"), error;

    if (connection < 0)
        return NO_SERVER;
    error = exchange_happening(connection, happening, -1, &reply);
    close(connection);
    if (error)
        return fail("happen", strerror(error));
    if (reply.result == MDL_OK)
        return 0;
    if (reply.result == MDL_NO_INITIATOR)
        return print_usage(text);
    fail("happen", reply.result == MDL_FAULTS ? "a fault is armed under each number"
                                              : "the disk refuses it");
    return REFUSED;
}

int main(int count, char **words)
{
    char *text = join_words(count - 1, words + 1);
    mdl_happening happening;
    mdl_error error;
    int status;

    if (!text)
        return fail("happen", "there is no memory");
    error = mdl_read_happening(text, &happening);
    status = error ? refuse_words(text, error) : let_happen(text, &happening);
    free(text);
    return status;
}
