/* Not proved. The options of a server: pairs of a name and a value. */
#include "options.h"

#include <errno.h>
#include <stdio.h>
#include <stdlib.h>
#include <string.h>
#include <sys/random.h>

/* A seed has at most 60 bits. This is none. */
#define MOST_SEED ((UINT64_C(1) << 60) - 1)
#define NO_SEED UINT64_MAX

int read_number(const char *text, uint64_t most, uint64_t *number)
{
    int is_hexadecimal = text[0] == '0' && (text[1] == 'x' || text[1] == 'X');
    const char *digits = is_hexadecimal ? text + 2 : text;
    char *end;

    if (digits[0] == '\0' || strspn(digits, "0123456789abcdefABCDEF") != strlen(digits))
        return 0;
    errno = 0;
    *number = strtoull(digits, &end, is_hexadecimal ? 16 : 10);
    return *end == '\0' && errno == 0 && *number <= most;
}

/* A text, padded with spaces to the length of its field. */
static int read_text(const char *text, uint8_t *field, size_t length)
{
    size_t at, own = strlen(text);

    if (own > length)
        return 0;
    for (at = 0; at < length; at++)
        field[at] = at < own ? (uint8_t)text[at] : ' ';
    return 1;
}

static int read_profile(const char *text, uint32_t *profile)
{
    static const char *const names[] = {
        [MDL_PROFILE_BASE] = "base",
        [MDL_PROFILE_EXTENDED] = "extended",
        [MDL_PROFILE_EXTENDED_CUT] = "extended-cut",
        [MDL_PROFILE_EXTENDED_512E] = "extended-512e",
    };

    for (*profile = MDL_PROFILE_BASE; *profile <= MDL_PROFILE_EXTENDED_512E; ++*profile)
        if (strcmp(text, names[*profile]) == 0)
            return 1;
    return 0;
}

/* Reads one option. Returns null, or what is wrong with it. */
static const char *read_option(const char *name, const char *value, struct options *options)
{
    mdl_identity *identity = &options->identity;
    const struct { const char *name; uint64_t *number; uint64_t most; } numbers[] = {
        { "--blocks", &options->blocks, UINT64_MAX },
        { "--pool", &options->pool, UINT32_MAX },
        { "--local", &identity->local, UINT64_MAX },
        { "--seed", &options->seed, MOST_SEED },
    };
    const struct { const char *name; uint8_t *field; size_t length; } texts[] = {
        { "--vendor", identity->vendor, sizeof identity->vendor },
        { "--product", identity->product, sizeof identity->product },
        { "--revision", identity->revision, sizeof identity->revision },
        { "--serial", identity->serial, sizeof identity->serial },
    };
    size_t at;

    for (at = 0; at < sizeof numbers / sizeof numbers[0]; at++)
        if (strcmp(name, numbers[at].name) == 0)
            return read_number(value, numbers[at].most, numbers[at].number)
                       ? NULL : "the value is no number, or too large";
    for (at = 0; at < sizeof texts / sizeof texts[0]; at++)
        if (strcmp(name, texts[at].name) == 0)
            return read_text(value, texts[at].field, texts[at].length)
                       ? NULL : "the value has more characters than the field";
    if (strcmp(name, "--profile") == 0)
        return read_profile(value, &options->profile) ? NULL : "there is no profile of that name";
    if (strcmp(name, "--socket") == 0)
        options->socket = value;
    else if (strcmp(name, "--disk") == 0)
        options->disk = value;
    else
        return "there is no such option";
    return NULL;
}

/* Reads each option. Returns null, or what is wrong with one. */
static const char *read_each(int count, char **words, struct options *options, const char **word)
{
    const char *fault;
    int at;

    for (at = 1; at < count; at += 2) {
        *word = words[at];
        if (at + 1 == count)
            return "there is no value, or no such option";
        fault = read_option(words[at], words[at + 1], options);
        if (fault)
            return fault;
    }
    return NULL;
}

/* Returns 1 if one of the options is among the words. */
static int has_option(int count, char **words, const char *const *names, size_t length)
{
    size_t name;
    int at;

    for (at = 1; at < count; at += 2)
        for (name = 0; name < length; name++)
            if (strcmp(words[at], names[name]) == 0)
                return 1;
    return 0;
}

/* Makes the identity of the seed. Without a seed the identity of a base disk is the standard one, and
 * that of a new extended disk is made of random bits. Returns 0 if there are none. */
static int make_identity(struct options *options, int is_new)
{
    if (options->seed == NO_SEED) {
        options->seed = 1;
        if (is_new && options->profile != MDL_PROFILE_BASE) {
            if (getrandom(&options->seed, sizeof options->seed, 0) != sizeof options->seed)
                return 0;
            options->seed &= MOST_SEED;
        }
    }
    return mdl_identity_of_seed(options->seed, &options->identity) == MDL_OK;
}

/* Returns null, or what is wrong with the options that say which disk it is. A file's disk has all that
 * is not given. */
static const char *check_sizes(int count, char **words, int needs_socket, const struct options *options,
                               int is_new, const char **word)
{
    static const char *const blocks[] = { "--blocks" }, *const pool[] = { "--pool" };

    *word = !needs_socket ? "--blocks or --pool" : is_new ? "--socket, --blocks or --pool" : "--socket";
    if ((needs_socket && !options->socket) || (is_new && !(options->blocks && options->pool)))
        return "is missing, or 0";
    *word = "--blocks or --pool";
    return (!options->blocks && has_option(count, words, blocks, 1)) ||
           (!options->pool && has_option(count, words, pool, 1)) ? "is 0" : NULL;
}

const char *read_options(int count, char **words, int needs_socket, struct options *options,
                         const char **word)
{
    static const char *const names[] = { "--seed", "--vendor", "--product", "--revision", "--serial",
                                         "--local" };
    const char *fault;
    int is_new;

    memset(options, 0, sizeof *options);
    options->seed = NO_SEED;
    options->profile = MDL_ANY_PROFILE;
    fault = read_each(count, words, options, word);
    if (fault)
        return fault;
    is_new = !options->disk || is_without_disk(options->disk);
    options->has_identity = is_new || has_option(count, words, names, sizeof names / sizeof names[0]);
    /* Initiators are tested against the standards, which an extended disk follows more closely. */
    if (is_new && options->profile == MDL_ANY_PROFILE)
        options->profile = MDL_PROFILE_EXTENDED;
    *word = "--seed";
    if (!make_identity(options, is_new))
        return "there are no random bytes to make it of";
    /* The options are read again, because their texts and number replace those of the seed. */
    read_each(count, words, options, word);
    return check_sizes(count, words, needs_socket, options, is_new, word);
}

int make_disk(const struct options *options, mdl_disk *disk, char *reason)
{
    const mdl_identity *identity = options->has_identity ? &options->identity : NULL;
    const struct wanted wanted = { options->profile, options->blocks, (uint32_t)options->pool, identity };
    mdl_error error;

    if (options->disk)
        return open_kept(disk, options->disk, &wanted, reason);
    error = mdl_make_with_profile(disk, wanted.profile, wanted.blocks, wanted.pool, identity);
    if (error)
        snprintf(reason, REASON_LENGTH, "%s", text_of_error(error));
    return !error;
}
