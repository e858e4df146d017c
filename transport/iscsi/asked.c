/* See asked.h. */
#include "asked.h"

#include <errno.h>
#include <stdlib.h>
#include <string.h>

#include "mehdalung.h"

/* Moves `text` past a word, if the text begins with it. */
static int read_word(const char **text, const char *word)
{
    size_t length = strlen(word);

    if (strncmp(*text, word, length) != 0)
        return 0;
    *text += length;
    return 1;
}

/* Reads a number, and moves `text` past it. It is decimal, or 0x and hexadecimal. */
static int read_number(const char **text, uint64_t *number)
{
    char *end;

    if (**text < '0' || **text > '9')
        return 0;
    errno = 0;
    *number = strtoull(*text, &end, strncmp(*text, "0x", 2) == 0 ? 16 : 10);
    *text = end;
    return errno == 0;
}

static int read_profile(const char **text, uint32_t *profile)
{
    static const struct { const char *word; uint32_t profile; } profiles[] = {
        { "base", MDL_PROFILE_BASE },
        { "extended-cut", MDL_PROFILE_EXTENDED_CUT }, /* before the name that begins both */
        { "extended-512e", MDL_PROFILE_EXTENDED_512E },
        { "extended", MDL_PROFILE_EXTENDED },
    };
    size_t at;

    for (at = 0; at < sizeof profiles / sizeof profiles[0]; at++)
        if (read_word(text, profiles[at].word)) {
            *profile = profiles[at].profile;
            return 1;
        }
    return 0;
}

/* Reads a part, and moves `text` past it. */
static int read_part(const char **text, struct asked *asked)
{
    if (read_word(text, "blocks="))
        return asked->has_blocks = read_number(text, &asked->blocks);
    if (read_word(text, "pool="))
        return asked->has_pool = read_number(text, &asked->pool);
    if (read_word(text, "seed="))
        return asked->has_seed = read_number(text, &asked->seed);
    if (read_word(text, "profile="))
        return read_profile(text, &asked->profile);
    if (!read_word(text, "file=") || **text != '/')
        return 0;
    asked->file = *text;
    *text += strlen(*text);
    return 1;
}

int read_asked(const char *text, struct asked *asked)
{
    memset(asked, 0, sizeof *asked);
    asked->profile = MDL_ANY_PROFILE;
    while (read_part(&text, asked) && *text == ':')
        text++;
    return *text == '\0' && (asked->file || (asked->has_blocks && asked->has_pool));
}
