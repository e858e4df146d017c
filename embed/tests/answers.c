/* Texts of random answers, from a seed.
 *     answers script SEED COUNT      prints them as a script of sgrun, a `show` each.
 *     answers decode SEED COUNT      decodes them by the library, and prints what sgrun prints.
 * `decode` runs in a thread with a small stack, and tries each text at every length of the buffer. */
#include <stdint.h>
#include <stdio.h>
#include <stdlib.h>
#include <string.h>

#include "below.h"
#include "cut.h"
#include "mehdalung.h"
#include "small_thread.h"

enum { MOST_BYTES = 96 };

static const struct {
    mdl_kind kind;
    const char *word;
} kinds[] = {
    { MDL_INQUIRY, "inq" },     { MDL_VPD, "vpd" },          { MDL_MODES_6, "modes6" },
    { MDL_MODES_10, "modes10" }, { MDL_LBA_STATUS, "lba" },   { MDL_KEYS, "keys" },
    { MDL_RESERVATION, "resv" }, { MDL_CAPABILITIES, "caps" }, { MDL_FULL_STATUS, "full" },
    { MDL_SENSE, "sense" },
};

struct answer {
    size_t kind, length;
    uint8_t bytes[MOST_BYTES];
};

/* Many bytes are small, so that length fields often end within the answer. */
static void next_answer(struct answer *a, uint64_t *seed)
{
    static const uint8_t pages[] = { 0x00, 0x80, 0x83, 0xB0, 0xB2, 0x81 };
    size_t at;

    a->kind = below(seed, sizeof kinds / sizeof *kinds);
    a->length = below(seed, MOST_BYTES + 1);
    for (at = 0; at < a->length; at++)
        a->bytes[at] = (uint8_t)(below(seed, 2) ? 0 : below(seed, below(seed, 2) ? 256 : 24));
    if (kinds[a->kind].kind == MDL_VPD && a->length > 1)
        a->bytes[1] = pages[below(seed, sizeof pages)];
    if (kinds[a->kind].kind == MDL_SENSE && a->length > 0)
        a->bytes[0] = (uint8_t)(0x70 | below(seed, 4));
}

static void print_script(uint64_t seed, unsigned long count)
{
    struct answer a;
    size_t at;

    while (count--) {
        next_answer(&a, &seed);
        printf("show %s %s", kinds[a.kind].word, a.length ? "" : "-");
        for (at = 0; at < a.length; at++)
            printf("%02x", (unsigned)a.bytes[at]);
        putchar('\n');
    }
}

static int decode(uint64_t seed, unsigned long count)
{
    static char text[MOST_TEXT];
    struct answer a;
    unsigned long line;

    for (line = 1; line <= count; line++) {
        size_t length;

        next_answer(&a, &seed);
        length = mdl_decode(kinds[a.kind].kind, a.bytes, a.length, text, sizeof text);
        if (length >= sizeof text - 4
            || !is_cut(kinds[a.kind].kind, a.bytes, a.length, text, length))
            return 99;
        printf("line %lu: SHOWN\n%s", line, text);
    }
    return 0;
}

int main(int count, char **words)
{
    if (count != 4)
        return 2;
    if (strcmp(words[1], "script") == 0) {
        print_script(strtoull(words[2], NULL, 10), strtoul(words[3], NULL, 10));
        return 0;
    }
    return in_small_thread(decode, strtoull(words[2], NULL, 10), strtoul(words[3], NULL, 10));
}
