/* Runs a script on a disk of the library, for tests/crash. It has options of sgrun, and its messages:
 *     script [--blocks N] [--pool N] [--profile NAME] [--disk FILE]
 * It prints a line for each line of standard input, and bytes in hexadecimal: the status, data-in and sense
 * data. What a line prints is written before the next one is read. */
#define _XOPEN_SOURCE 700
#include <ctype.h>
#include <inttypes.h>
#include <stdio.h>
#include <stdlib.h>
#include <string.h>

#include "mehdalung.h"

enum { MOST_LINE = 70000, MOST_DATA_OUT = 1 << 17 };

struct script {
    mdl_disk disk;
    uint64_t blocks;
    uint32_t pool, profile;
    const char *path;
};

static uint8_t data_in[MDL_BUFFER_LENGTH], data_out[MOST_DATA_OUT];

static void put_bytes(const uint8_t *bytes, size_t length)
{
    size_t at;

    for (at = 0; at < length; at++)
        printf("%s%02x", at % 32 ? "" : "\n  ", bytes[at]);
}

/* Reads hexadecimal digits, or "-" for no byte. Returns the number of bytes. */
static size_t read_bytes(const char *text, uint8_t *bytes, size_t most)
{
    size_t length = 0;
    unsigned byte;

    while (text && length < most && sscanf(text, "%2x", &byte) == 1) {
        bytes[length++] = (uint8_t)byte;
        text += 2;
    }
    return length;
}

static void send_command(struct script *it, uint32_t initiator, const uint8_t *cdb, size_t cdb_length,
                         size_t data_out_length)
{
    mdl_reply reply;
    mdl_error error = mdl_execute(&it->disk, initiator, cdb, cdb_length, data_out, data_out_length,
                                  data_in, sizeof data_in, &reply);

    if (error)
        printf("error %d", (int)error);
    else if (reply.status == MDL_GOOD)
        printf("GOOD");
    else
        printf("status %02x", reply.status);
    if (!error) {
        put_bytes(reply.sense, reply.sense_length);
        put_bytes(data_in, reply.data_in_length);
    }
}

/* The initiator that a word names by its number, as 17, 0x11 or 11h. UINT32_MAX if the word is no number: no
 * disk has this initiator. */
static uint32_t initiator_in(const char *word)
{
    const size_t length = word ? strlen(word) : 0;
    const int ends_with_h = length > 1 && (word[length - 1] == 'h' || word[length - 1] == 'H');
    const int is_hexadecimal = ends_with_h || (length > 2 && (word[1] == 'x' || word[1] == 'X'));
    unsigned long number;
    char *end;

    if (length == 0 || !isxdigit((unsigned char)word[0]))
        return UINT32_MAX;
    number = strtoul(word, &end, is_hexadecimal ? 16 : 10);
    return end + ends_with_h == word + length && number < UINT32_MAX ? (uint32_t)number : UINT32_MAX;
}

/* raw INITIATOR CDB DATA-OUT */
static void send_raw(struct script *it, char **words)
{
    uint8_t cdb[300];
    size_t length = read_bytes(words[2], cdb, sizeof cdb);

    send_command(it, initiator_in(words[1]), cdb, length,
                 read_bytes(words[3], data_out, sizeof data_out));
}

/* fill INITIATOR ADDRESS COUNT BYTE: a WRITE(16) of blocks with one byte */
static void fill(struct script *it, char **words)
{
    uint64_t lba = strtoull(words[2], NULL, 0);
    uint32_t count = (uint32_t)strtoul(words[3], NULL, 0);
    size_t length = (size_t)count * MDL_BLOCK_LENGTH;
    uint8_t cdb[16] = { 0x8A };
    int at;

    for (at = 0; at < 8; at++)
        cdb[2 + at] = (uint8_t)(lba >> 8 * (7 - at));
    for (at = 0; at < 4; at++)
        cdb[10 + at] = (uint8_t)(count >> 8 * (3 - at));
    length = length < sizeof data_out ? length : sizeof data_out;
    memset(data_out, (int)strtoul(words[4], NULL, 0), length);
    send_command(it, initiator_in(words[1]), cdb, sizeof cdb, length);
}

/* INITIATOR WORD..., the words of a tool */
static void send_tool(struct script *it, uint32_t initiator, const char *rest)
{
    mdl_command command;
    mdl_error error = mdl_tool(rest, data_out, sizeof data_out, &command);

    if (error)
        printf("error %d", (int)error);
    else
        send_command(it, initiator, command.cdb, command.cdb_length, command.data_out_length);
}

/* The verb of a happening, as sgrun prints it if the disk underwent it. */
static void happen(struct script *it, const char *line)
{
    static const char *const names[] = { "POWER", "RESET", "TARGET RESET", "NEXUS LOSS", "ATTENTION",
                                         "GROW", "FAULT", "HEAL", "HEAL" };
    mdl_happening happening;
    mdl_error error = mdl_read_happening(line, &happening);

    if (!error)
        error = mdl_happen(&it->disk, &happening);
    if (error)
        printf("error %d", (int)error);
    else
        printf("%s", names[happening.kind]);
}

static void print_faults(struct script *it)
{
    char text[32768] = "";

    mdl_faults(&it->disk, text, sizeof text);
    printf("FAULTS\n%s", text);
}

static void run_line(struct script *it, const char *line)
{
    char copy[MOST_LINE], *words[6] = { NULL }, *rest = NULL;
    int at;

    strcpy(copy, line);
    for (at = 0; at < 5; at++)
        words[at] = strtok_r(at ? NULL : copy, " \t", &rest);
    if (initiator_in(words[0]) < MDL_MOST_INITIATORS)
        send_tool(it, initiator_in(words[0]), line + strcspn(line, " \t"));
    else if (!strncmp(line, "raw ", 4))
        send_raw(it, words);
    else if (!strncmp(line, "fill ", 5) && words[4])
        fill(it, words);
    else if (!strcmp(line, "faults"))
        print_faults(it);
    else if (strncmp(line, "show ", 5))
        happen(it, line);
}

static mdl_error open_disk(struct script *it)
{
    mdl_damage damage = { 0, 0 };
    mdl_error error;

    if (!it->path)
        return mdl_make_with_profile(&it->disk, it->profile, it->blocks, it->pool, NULL);
    error = mdl_open(&it->disk, it->path, it->blocks ? it->profile : MDL_ANY_PROFILE, it->blocks,
                     it->pool, NULL, &damage);
    if (!error)
        return MDL_OK;
    fprintf(stderr, "sgrun: cannot open %s", it->path);
    if (error == MDL_NOT_A_DISK)
        fprintf(stderr, ": the file is not a disk");
    else if (error == MDL_OTHER_VERSION)
        fprintf(stderr, ": the file has version %" PRIu64 " of the format", damage.offset);
    else if (error == MDL_DAMAGED_FILE && damage.batch == UINT64_MAX)
        fprintf(stderr, ": the file is damaged at byte %" PRIu64, damage.offset);
    else if (error == MDL_DAMAGED_FILE)
        fprintf(stderr, ": the record at byte %" PRIu64 " of batch %" PRIu64 " is damaged",
                damage.offset, damage.batch);
    else if (error != MDL_CANNOT_OPEN)
        fprintf(stderr, ": error %d", (int)error);
    fputc('\n', stderr);
    return error;
}

static uint32_t profile_named(const char *name)
{
    static const char *const names[] = {
        [MDL_PROFILE_BASE] = "base",
        [MDL_PROFILE_EXTENDED] = "extended",
        [MDL_PROFILE_EXTENDED_CUT] = "extended-cut",
        [MDL_PROFILE_EXTENDED_512E] = "extended-512e",
    };
    uint32_t profile;

    for (profile = MDL_PROFILE_BASE; profile <= MDL_PROFILE_EXTENDED_512E; profile++)
        if (!strcmp(name, names[profile]))
            return profile;
    return MDL_ANY_PROFILE;
}

static void read_options(struct script *it, char **words)
{
    for (; words[0] && words[1]; words += 2)
        if (!strcmp(words[0], "--blocks"))
            it->blocks = strtoull(words[1], NULL, 0);
        else if (!strcmp(words[0], "--pool"))
            it->pool = (uint32_t)strtoul(words[1], NULL, 0);
        else if (!strcmp(words[0], "--profile"))
            it->profile = profile_named(words[1]);
        else if (!strcmp(words[0], "--disk"))
            it->path = words[1];
}

int main(int count, char **words)
{
    static char line[MOST_LINE];
    struct script it = { .disk = MDL_NONE };
    unsigned long number = 0;

    (void)count;
    read_options(&it, words + 1);
    if (open_disk(&it))
        return 15;
    while (fgets(line, sizeof line, stdin)) {
        line[strcspn(line, "\n")] = 0;
        printf("line %lu: ", ++number);
        run_line(&it, line);
        printf("\n");
        fflush(stdout);
    }
    if (!mdl_close(&it.disk))
        return 0;
    fprintf(stderr, "sgrun: cannot write %s\n", it.path);
    return 15;
}
