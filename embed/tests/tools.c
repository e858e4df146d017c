/* Lines of tools. Some are chosen, and the others are random from a seed.
 *     tools script SEED COUNT   prints them as a script of sgrun, each after an initiator.
 *     tools run SEED COUNT      plans and executes them by the library, and prints what sgrun prints.
 * `run` uses a thread with a small stack. Now and then a line is a `fill`, so that there are blocks
 * to unmap. */
#include <stdint.h>
#include <stdio.h>
#include <stdlib.h>
#include <string.h>

#include "below.h"
#include "mehdalung.h"
#include "small_thread.h"

enum { BLOCKS = 4096, POOL = 16, MOST_WORDS = 2048, MOST_TEXT = 65536, FILLED = 4 };

/* The texts of options, a list for each kind. A null pointer ends each list. */
static const char *const numbers[] = {
    "0", "1", "2", "3", "4", "7", "17", "24", "31", "32", "39", "0x10", "0xFC", "10h", "252", "255", "256",
    "65535", "65536", "4095", "4096", "4294967295", "4294967296", "18446744073709551615",
    "18446744073709551616", "1k", "-1", "+1", "0x", "x", NULL
};
static const char *const vpd_pages[] = { "sv", "sn", "di", "bl", "lbpv", "0", "0x80", "0x83", "0xb0", "0xB2",
                                         "178", "0x81", "256", "b0", "SV", NULL };
static const char *const mode_pages[] = { "0x3f", "8", "0xa", "10,0", "0x3f,0xff", "0x1c", "63,1", "64",
                                          "10,256", "8,0,0", "8,", "ten", NULL };
static const char *const keys[] = { "0", "a0", "a1", "a2", "a3", "0xa0", "0XA1", "A2", "ffffffffffffffff",
                                    "10000000000000000", "0x", "a1h", "g", NULL };
static const char *const types[] = { "1", "3", "5", "6", "7", "8", "0x1", "0", "2", "f", "10", "1h", NULL };
static const char *const lists[] = { NULL };

struct option {
    const char *name;           /* the long one, and a short one before it or a blank */
    const char *const *texts;   /* null where it is a flag */
};

static const struct option inq[] = { { "evpd", NULL }, { "ppage", vpd_pages }, { "llen", numbers },
                                     { "Hhex", NULL }, { "iid", NULL } };
static const struct option vpd[] = { { "ppage", vpd_pages }, { "Hhex", NULL }, { "mmaxlen", numbers } };
static const struct option modes[] = { { "aall", NULL }, { "ccontrol", numbers }, { "ddbd", NULL },
                                       { "Lllbaa", NULL }, { "ppage", mode_pages }, { " six", NULL },
                                       { "Hhex", NULL } };
static const struct option unmap[] = { { "llba", lists }, { "nnum", lists }, { "aanchor", NULL },
                                       { "ggrpnum", numbers } };
static const struct option lba_status[] = { { "llba", numbers }, { "mmaxlen", numbers }, { "bbrief", NULL },
                                            { "Hhex", NULL } };
static const struct option persist[] = {
    { "kread-keys", NULL }, { "rread-reservation", NULL }, { "creport-capabilities", NULL },
    { "sread-full-status", NULL }, { "Gregister", NULL }, { "Iregister-ignore", NULL }, { "Rreserve", NULL },
    { "Lrelease", NULL }, { "Cclear", NULL }, { "Ppreempt", NULL }, { "Apreempt-abort", NULL },
    { "Kparam-rk", keys }, { "Sparam-sark", keys }, { "Tprout-type", types }, { "Zparam-aptpl", NULL },
    { "nno-inquiry", NULL }, { "iin", NULL }, { "oout", NULL }
};

#define OPTIONS(table) table, sizeof table / sizeof *table
static const struct tool {
    const char *name;
    const struct option *options;
    uint32_t count;
} tools[] = {
    { "sg_inq", OPTIONS(inq) },       { "sg_vpd", OPTIONS(vpd) },
    { "sg_modes", OPTIONS(modes) },   { "sg_unmap", OPTIONS(unmap) },
    { "sg_get_lba_status", OPTIONS(lba_status) }, { "sg_persist", OPTIONS(persist) },
};

/* A line with each fault, in the order of the checks, and a line for each tool. */
static const char *const chosen[] = {
    "sg_inq\x01", "\xEF\xBB\xBFsg_inq", "sg_foo \x7F", "sg_vpd\r -p sv", "", " \t ", "sg_foo", "SG_INQ",
    "# sg_inq", "sg_inq /dev/sg0", "sg_inq -HH", "sg_vpd --help", "sg_modes -z", "sg_unmap -l 1",
    "sg_unmap -n 1", "sg_unmap -l 1,2 -n 1", "sg_persist -o", "sg_inq -i -p sv", "sg_modes -a -p 8",
    "sg_modes --six -L", "sg_get_lba_status -b -H", "sg_persist -i -G", "sg_persist -k -r -T x",
    "sg_vpd -p b0", "sg_vpd -m 65536", "sg_modes -c 4", "sg_unmap -l 1, -n 1,2", "sg_persist -R -T 1h",
    "sg_inq", "sg_inq -e", "sg_inq -i", "sg_vpd", "sg_vpd -p lbpv", "\tsg_vpd \t -H --page=0xb0 ",
    "sg_modes", "sg_modes --six", "sg_unmap -l 0 -n 0", "sg_unmap --lba=1,3 --num=1,1 --anchor",
    "sg_get_lba_status", "sg_get_lba_status -b -m 512", "sg_persist", "sg_persist -c", "sg_persist -G -S a1",
    "sg_persist -R -K a1 -T 1", "sg_persist -r", "sg_persist -s", "sg_persist -L -K a1 -T 1",
};
enum { CHOSEN = sizeof chosen / sizeof *chosen };

struct line {
    uint32_t initiator;
    int is_fill;
    uint32_t lba, count;
    char words[MOST_WORDS];
};

static void add(struct line *l, const char *text)
{
    size_t length = strlen(l->words);

    snprintf(l->words + length, sizeof l->words - length, "%s", text);
}

static void add_number(struct line *l, uint32_t number)
{
    char text[16];

    snprintf(text, sizeof text, "%lu", (unsigned long)number);
    add(l, text);
}

static void add_one_of(struct line *l, uint64_t *seed, const char *const *texts)
{
    uint32_t count = 0;

    while (texts[count])
        count++;
    add(l, texts[below(seed, count)]);
}

/* Numbers with commas between them: mostly few, now and then as many as an UNMAP has, or one more. */
static void add_list(struct line *l, uint64_t *seed, uint32_t count)
{
    uint32_t at;

    for (at = 0; at < count; at++) {
        if (at)
            add(l, ",");
        if (below(seed, 60))
            add_number(l, below(seed, 24));
        else
            add_one_of(l, seed, numbers);
    }
}

static void add_text(struct line *l, uint64_t *seed, const struct option *option, uint32_t entries)
{
    if (option->texts == lists)
        add_list(l, seed, below(seed, 12) ? entries : 1 + below(seed, 3));
    else
        add_one_of(l, seed, option->texts);
}

/* In each form that an option has: -p TEXT, -pTEXT, -p=TEXT, --page TEXT and --page=TEXT. */
static void add_option(struct line *l, uint64_t *seed, const struct option *option, uint32_t entries)
{
    static const char *const between_short[] = { " ", "", "=", NULL };
    static const char *const between_long[] = { " ", "=", NULL };
    char letter[2] = { option->name[0], 0 };

    add(l, below(seed, 8) ? " " : below(seed, 2) ? "\t" : "  ");
    if (letter[0] != ' ' && below(seed, 2)) {
        add(l, "-");
        add(l, letter);
        if (option->texts)
            add_one_of(l, seed, between_short);
    } else {
        add(l, "--");
        add(l, option->name + 1);
        if (option->texts)
            add_one_of(l, seed, between_long);
    }
    if (option->texts)
        add_text(l, seed, option, entries);
}

static void random_words(struct line *l, uint64_t *seed)
{
    static const char *const odd[] = { " -v", " /dev/sg0", " --", " -h", " -", " --hex=1", " \x01",
                                       " \xC2\xA0", NULL };
    const struct tool *tool = &tools[below(seed, sizeof tools / sizeof *tools)];
    uint32_t entries = below(seed, 24) ? 1 + below(seed, 3) : 63 + below(seed, 3), at;
    uint32_t wanted = below(seed, 5);

    add(l, below(seed, 64) ? tool->name : "sg_raw");
    if (tool->options == unmap && below(seed, 12)) {
        add_option(l, seed, &unmap[0], entries);
        add_option(l, seed, &unmap[1], entries);
        wanted = below(seed, 2);
    }
    for (at = 0; at < wanted; at++)
        add_option(l, seed, &tool->options[below(seed, tool->count)], entries);
    if (below(seed, 40) == 0)
        add_one_of(l, seed, odd);
    if (below(seed, 100) == 0)
        for (at = 0; at < 70; at++)
            add(l, " -H");
}

/* Lines for fencing. They register, reserve, release and preempt with keys that others have too. */
static void persist_words(struct line *l, uint64_t *seed)
{
    static const char *const actions[] = { "-G", "-G", "-I", "-R", "-R", "-L", "-P", "-A", "-C", NULL };
    static const char *const known[] = { "a0", "a1", "a2", "a3", NULL };

    add(l, "sg_persist ");
    add_one_of(l, seed, actions);
    if (below(seed, 4)) {
        add(l, " -K ");
        add_one_of(l, seed, known);
    }
    add(l, " -S ");
    add_one_of(l, seed, known);
    add(l, " -T ");
    add_one_of(l, seed, types);
    if (below(seed, 8) == 0)
        add(l, " -Z");
}

static void next_line(struct line *l, uint64_t *seed, unsigned long number)
{
    memset(l, 0, sizeof *l);
    l->initiator = below(seed, MDL_INITIATORS);
    l->is_fill = below(seed, 12) == 0;
    l->lba = below(seed, 24);
    l->count = below(seed, FILLED + 1);
    if (number < CHOSEN) {
        l->is_fill = 0;
        add(l, chosen[number]);
    } else if (below(seed, 4) == 0)
        persist_words(l, seed);
    else
        random_words(l, seed);
}

static void print_script(uint64_t seed, unsigned long count)
{
    unsigned long number;
    struct line l;

    for (number = 0; number < count; number++) {
        next_line(&l, &seed, number);
        if (l.is_fill)
            printf("fill %u %u %u 0xAB\n", (unsigned)l.initiator, (unsigned)l.lba, (unsigned)l.count);
        else
            printf("%u %s\n", (unsigned)l.initiator, l.words);
    }
}

static const char *message(mdl_error error)
{
    switch (error) {
    case MDL_BAD_BYTE: return "bad byte";
    case MDL_TOO_MANY_WORDS: return "too many words";
    case MDL_UNKNOWN_TOOL: return "unknown tool";
    case MDL_USAGE: return "usage";
    case MDL_EXCLUSIVE: return "exclusive";
    case MDL_NUMBER: return "number";
    default: return "no fault of words";
    }
}

static void print_text(uint32_t kind, const uint8_t *bytes, size_t length)
{
    static char text[MOST_TEXT];

    if (mdl_decode(kind, bytes, length, text, sizeof text) < sizeof text)
        fputs(text, stdout);
}

/* Plans a line, into a record and a buffer that have other bytes in them. */
static mdl_error plan(const struct line *l, mdl_command *command, uint8_t *data_out)
{
    memset(command, 0xDD, sizeof *command);
    if (!l->is_fill)
        return mdl_tool(l->words, data_out, MDL_DATA_OUT_LENGTH, command);
    memset(command, 0, sizeof *command);
    command->cdb[0] = 0x8A;
    command->cdb[9] = (uint8_t)l->lba;
    command->cdb[13] = (uint8_t)l->count;
    command->cdb_length = MDL_CDB_LENGTH;
    command->kind = MDL_NOTHING;
    command->data_out_length = MDL_BLOCK_LENGTH * l->count;
    memset(data_out, 0xAB, command->data_out_length);
    return MDL_OK;
}

static int run(uint64_t seed, unsigned long count)
{
    static const char *const names[] = { "GOOD", "CHECK CONDITION", "RESERVATION CONFLICT" };
    static uint8_t data_in[MDL_BUFFER_LENGTH], data_out[FILLED * MDL_BLOCK_LENGTH];
    mdl_disk disk = MDL_NONE;
    mdl_command command;
    mdl_reply reply;
    struct line l;
    unsigned long number;

    if (mdl_make(&disk, BLOCKS, POOL, NULL))
        return 99;
    for (number = 0; number < count; number++) {
        mdl_error error;

        next_line(&l, &seed, number);
        error = plan(&l, &command, data_out);
        if (error) {
            printf("line %lu: %s\n", number + 1, message(error));
            continue;
        }
        if (mdl_execute(&disk, l.initiator, command.cdb, command.cdb_length, data_out,
                        command.data_out_length, data_in, sizeof data_in, &reply))
            return 99;
        printf("line %lu: %s\n", number + 1,
               names[reply.status == MDL_GOOD ? 0 : reply.status == MDL_CHECK_CONDITION ? 1 : 2]);
        if (reply.sense_length)
            print_text(MDL_SENSE, reply.sense, reply.sense_length);
        if (reply.status == MDL_GOOD)
            print_text(command.kind, data_in, reply.data_in_length);
    }
    mdl_free(&disk);
    return 0;
}

int main(int count, char **words)
{
    if (count != 4)
        return 2;
    if (strcmp(words[1], "script") == 0) {
        print_script(strtoull(words[2], NULL, 10), strtoul(words[3], NULL, 10));
        return 0;
    }
    return in_small_thread(run, strtoull(words[2], NULL, 10), strtoul(words[3], NULL, 10));
}
