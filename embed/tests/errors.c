/* Tries each named error: the call changes nothing and keeps no memory. Also tries that no command
 * takes memory, and what the fields of the records contain. */
#include <stdio.h>
#include <stdlib.h>
#include <string.h>

#include "commands.h"
#include "cut.h"
#include "mehdalung.h"

extern void *__libc_malloc(size_t), *__libc_realloc(void *, size_t);
extern void __libc_free(void *);
static unsigned long requests, refused;
static long held; /* blocks of memory that were taken and not given back */

void *malloc(size_t size)
{
    void *taken = ++requests == refused ? NULL : __libc_malloc(size);

    held += taken != NULL;
    return taken;
}

void *realloc(void *old, size_t size)
{
    void *taken = ++requests == refused ? NULL : __libc_realloc(old, size);

    held += !old && taken;
    return taken;
}

void free(void *old)
{
    held -= old != NULL;
    __libc_free(old);
}

static int failures;
#define WANT(condition) \
    do { \
        if (!(condition)) { \
            failures++; \
            fprintf(stderr, "line %d: not so: %s\n", __LINE__, #condition); \
        } \
    } while (0)

static uint8_t data_in[MDL_BUFFER_LENGTH], before_in[MDL_BUFFER_LENGTH];
static mdl_reply reply, before;

/* A refused call leaves the reply and the buffer as they were. */
static int is_untouched(void)
{
    return memcmp(&reply, &before, sizeof reply) == 0
        && memcmp(data_in, before_in, sizeof data_in) == 0;
}

/* A line has an offset of eight digits between blanks, and three characters a byte. */
static size_t length_of_hex(size_t bytes)
{
    return (bytes + 15) / 16 * 12 + 3 * bytes;
}

/* Each kind of text at each length of the buffer, with and without memory. */
static void decode_every_length(void)
{
    static const uint8_t bytes[40] = { 0, 0xB2, 0, 36, 9, 0xE6, 2 };
    static char whole[MOST_TEXT], cut[4096], untouched[4096];
    const long held_before = held;
    uint32_t kind;
    size_t length;

    memset(untouched, '?', sizeof untouched);
    for (kind = MDL_NOTHING; kind <= MDL_FULL_STATUS_EXTENDED; kind++) {
        memset(whole, '?', sizeof whole);
        length = mdl_decode(kind, bytes, sizeof bytes, whole, sizeof whole);
        WANT(length < sizeof cut && strlen(whole) == length && whole[length + 1] == '?');
        WANT((length == 0) == (kind == MDL_NOTHING));
        WANT(mdl_decode(kind, bytes, sizeof bytes, NULL, 0) == length);
        WANT(is_cut(kind, bytes, sizeof bytes, whole, length));
    }
    memset(cut, '?', sizeof cut);
    kind = MDL_FULL_STATUS_EXTENDED + 1;
    WANT(mdl_decode(kind, bytes, sizeof bytes, cut, sizeof cut) == MDL_NO_TEXT);
    kind = 256 + MDL_HEX;
    WANT(mdl_decode(kind, bytes, sizeof bytes, cut, sizeof cut) == MDL_NO_TEXT);
    WANT(mdl_decode(MDL_HEX, NULL, 1, cut, sizeof cut) == MDL_NO_TEXT);
    WANT(mdl_decode(MDL_HEX, bytes, 1, NULL, 1) == MDL_NO_TEXT);
    requests = 0;
    length = mdl_decode(MDL_HEX, bytes, sizeof bytes, whole, sizeof whole);
    WANT(length == length_of_hex(sizeof bytes) && requests > 0 && held == held_before);
    for (refused = requests; refused > 0; refused--) {
        requests = 0;
        WANT(mdl_decode(MDL_HEX, bytes, sizeof bytes, cut, sizeof cut) == MDL_NO_TEXT);
        WANT(requests >= refused && held == held_before);
    }
    WANT(!memcmp(cut, untouched, sizeof cut));
    WANT(mdl_decode(MDL_HEX, NULL, 0, cut, sizeof cut) == 0 && cut[0] == 0);
}

/* The two texts of PERSISTENT RESERVE IN that an extended disk shows with more fields. */
static void decode_with_all_fields(void)
{
    static const uint8_t capabilities[] = { 0, 8, 0x0D, 0xB0, 0, 0, 0, 0 };
    static const uint8_t full[] = { 0, 0, 0, 1, 0, 0, 0, 24, 0, 0, 0, 0, 0, 0, 0, 0xA1,
        0, 0, 0, 0, 2, 0, 0, 0, 0, 0, 0, 1, 0, 0, 0, 0 };
    static char text[4096];

    mdl_decode(MDL_CAPABILITIES_EXTENDED, capabilities, sizeof capabilities, text, sizeof text);
    WANT(!strcmp(text, "  length: 8\n  RLR_C: 0, CRH: 0, SIP_C: 1, ATP_C: 1, PTPL_C: 1\n"
                       "  TMV: 1, ALLOW COMMANDS: 3, PTPL_A: 0\n  types:\n"));
    mdl_decode(MDL_CAPABILITIES, capabilities, sizeof capabilities, text, sizeof text);
    WANT(!strcmp(text, "  length: 8\n  PTPL_C: 1\n  TMV: 1, PTPL_A: 0\n  types:\n"));
    mdl_decode(MDL_FULL_STATUS_EXTENDED, full, sizeof full, text, sizeof text);
    WANT(strstr(text, "  key: 0x00000000000000a1, all target ports: 1, holder: 0, scope: 0, "));
    mdl_decode(MDL_FULL_STATUS, full, sizeof full, text, sizeof text);
    WANT(strstr(text, "  key: 0x00000000000000a1, holder: 0, scope: 0, "));
}

/* Words, and why they are refused: the first fault that applies. */
static const struct {
    const char *words;
    mdl_error error;
} refused_words[] = {
    { "sg_inq\n", MDL_BAD_BYTE },          { "sg_inq \x7F", MDL_BAD_BYTE },
    { "sg_foo \xE9", MDL_BAD_BYTE },       { "", MDL_UNKNOWN_TOOL },
    { " \t ", MDL_UNKNOWN_TOOL },          { "sg_foo", MDL_UNKNOWN_TOOL },
    { "SG_INQ", MDL_UNKNOWN_TOOL },        { "0 sg_inq", MDL_UNKNOWN_TOOL },
    { "sg_inq -z", MDL_USAGE },            { "sg_vpd --help", MDL_USAGE },
    { "sg_unmap -l 1", MDL_USAGE },        { "sg_unmap -l 1,2 -n 1", MDL_USAGE },
    { "sg_persist -o", MDL_USAGE },        { "sg_persist -k -r", MDL_EXCLUSIVE },
    { "sg_inq -i -p x", MDL_EXCLUSIVE },   { "sg_vpd -p b0", MDL_NUMBER },
    { "sg_unmap -l x -n 1,2", MDL_NUMBER }, { "sg_persist -R -T 10", MDL_NUMBER },
};

static uint8_t data_out[MDL_DATA_OUT_LENGTH], before_out[MDL_DATA_OUT_LENGTH];
static mdl_command command, before_command;

/* Words are refused, and record and buffer stay as they were. */
static int is_refused(const char *words, size_t length, mdl_error error)
{
    return mdl_tool(words, data_out, length, &command) == error
        && memcmp(&command, &before_command, sizeof command) == 0
        && memcmp(data_out, before_out, sizeof data_out) == 0;
}

/* A tool's name, and "-H" up to `count` words. */
static const char *many_words(const char *name, size_t count)
{
    static char words[1024];

    strcpy(words, name);
    while (--count)
        strcat(words, " -H");
    return words;
}

static void refuse_words(void)
{
    size_t at;

    WANT(mdl_tool(NULL, data_out, sizeof data_out, &command) == MDL_NULL_POINTER);
    WANT(mdl_tool("sg_inq", NULL, sizeof data_out, &command) == MDL_NULL_POINTER);
    WANT(mdl_tool("sg_inq", data_out, sizeof data_out, NULL) == MDL_NULL_POINTER);
    WANT(is_refused("sg_inq", sizeof data_out - 1, MDL_BUFFER_TOO_SHORT));
    WANT(is_refused("sg_foo \n", 0, MDL_BUFFER_TOO_SHORT));
    for (at = 0; at < sizeof refused_words / sizeof *refused_words; at++)
        WANT(is_refused(refused_words[at].words, sizeof data_out, refused_words[at].error));
    WANT(is_refused(many_words("sg_inq", 64), sizeof data_out, MDL_USAGE));
    WANT(is_refused(many_words("sg_foo", 65), sizeof data_out, MDL_TOO_MANY_WORDS));
    WANT(is_refused(many_words("sg_foo\x01", 65), sizeof data_out, MDL_BAD_BYTE));
}

/* Plans a command, and then again with each request for memory refused in turn. */
static void plan_page(long held_before)
{
    static const uint8_t page[MDL_CDB_LENGTH] = { 0x12, 1, 0xB2, 0, 252 };
    static const uint8_t capacity[MDL_CDB_LENGTH] = { 0x9E, 0x10, [13] = 32 };

    WANT(mdl_tool("sg_readcap --16", data_out, sizeof data_out, &command) == MDL_OK);
    WANT(!memcmp(command.cdb, capacity, sizeof capacity) && command.cdb_length == 16);
    WANT(command.kind == MDL_CAPACITY_16 && command.data_out_length == 0);
    requests = 0;
    WANT(mdl_tool("sg_vpd -p lbpv", data_out, sizeof data_out, &command) == MDL_OK);
    WANT(requests > 0 && !memcmp(command.cdb, page, sizeof page) && command.cdb_length == 6);
    WANT(command.kind == MDL_VPD && command.data_out_length == 0);
    memcpy(&command, &before_command, sizeof command);
    for (refused = requests; refused > 0; refused--) {
        requests = 0;
        WANT(is_refused("sg_vpd -p lbpv", sizeof data_out, MDL_OUT_OF_MEMORY));
        WANT(requests >= refused && held == held_before);
    }
}

static void plan_unmap(void)
{
    static const uint8_t unmap[MDL_CDB_LENGTH] = { 0x42, [8] = 24 };
    static const uint8_t extent[24] = { 0, 22, 0, 16, [15] = 1, [19] = 2 };
    static char most[2048] = "sg_unmap -l 1";
    size_t at;

    WANT(mdl_tool("sg_unmap -l 1 -n 2", data_out, sizeof data_out, &command) == MDL_OK);
    WANT(!memcmp(command.cdb, unmap, sizeof unmap) && command.cdb_length == 10);
    WANT(command.kind == MDL_NOTHING && command.data_out_length == sizeof extent);
    WANT(!memcmp(data_out, extent, sizeof extent));
    WANT(!memcmp(data_out + sizeof extent, before_out, sizeof data_out - sizeof extent));
    for (at = 1; at < 64; at++)
        strcat(most, ",1");
    strcat(most, " -n 2");
    for (at = 1; at < 64; at++)
        strcat(most, ",2");
    WANT(mdl_tool(most, data_out, sizeof data_out, &command) == MDL_OK);
    WANT(command.data_out_length == sizeof data_out && data_out[sizeof data_out - 5] == 2);
}

static void plan_words(void)
{
    const long held_before = held;

    memset(data_out, 0xEE, sizeof data_out);
    memset(before_out, 0xEE, sizeof before_out);
    memset(&command, 0xDD, sizeof command);
    memcpy(&before_command, &command, sizeof command);
    refuse_words();
    WANT(held == held_before);
    plan_page(held_before);
    plan_unmap();
    WANT(held == held_before);
}

static mdl_disk disk = MDL_NONE, no_disk = MDL_NONE;
static const uint8_t ready[6] = { 0 };

/* Executes a command of initiator 0, and returns its status. */
static int status_of(const uint8_t *cdb, size_t length, const uint8_t *bytes, size_t byte_count)
{
    WANT(mdl_execute(&disk, 0, cdb, length, bytes, byte_count, data_in, sizeof data_in, &reply)
         == MDL_OK);
    return reply.status;
}

/* Returns 1 if a command is refused, and record, buffer and disk stay as they were. */
static int is_refused_command(mdl_disk *of, uint32_t initiator, size_t room, mdl_error error)
{
    return mdl_execute(of, initiator, ready, 6, NULL, 0, data_in, room, &reply) == error
        && is_untouched();
}

/* Makes the disk, after all that is refused. */
static void make_disks(void)
{
    mdl_identity own = { "ACME    ", "DISK            ", "0200", "00000042", 42 };
    const uint64_t most = (uint64_t)1 << 40;
    long held_before = held;
    unsigned long needed;
    void *target;

    WANT(mdl_make(NULL, 64, 4, NULL) == MDL_NULL_POINTER);
    WANT(mdl_make(&disk, 0, 4, NULL) == MDL_BLOCKS && !disk.target);
    WANT(mdl_make(&disk, most + 1, 4, NULL) == MDL_BLOCKS && !disk.target);
    WANT(mdl_make(&disk, 64, 0, NULL) == MDL_POOL && !disk.target);
    WANT(mdl_make(&disk, 64, 65537, NULL) == MDL_POOL && !disk.target);
    own.vendor[0] = 0x1F;
    WANT(mdl_make(&disk, 64, 4, &own) == MDL_IDENTITY_TEXT && !disk.target);
    own.vendor[0] = 'A';
    own.local = (uint64_t)1 << 60;
    WANT(mdl_make(&disk, 64, 4, &own) == MDL_IDENTITY_LOCAL && !disk.target);
    own.local = 42;
    WANT(held == held_before);

    requests = 0;
    WANT(mdl_make(&disk, 64, 4, &own) == MDL_OK && disk.target && held > held_before);
    needed = requests;
    held_before = held;
    for (refused = 1; refused <= needed; refused++) {
        requests = 0;
        WANT(mdl_make(&no_disk, 64, 4, NULL) == MDL_OUT_OF_MEMORY && !no_disk.target);
        WANT(requests >= refused && held == held_before);
    }
    refused = 0;
    target = disk.target;
    WANT(mdl_make(&disk, 64, 4, NULL) == MDL_DISK_EXISTS && disk.target == target);
    WANT(held == held_before);
}

static void refuse_commands(void)
{
    static const uint8_t inquiry[6] = { 0x12, 0, 0, 0, 36 };
    const size_t room = sizeof data_in;
    void *target = disk.target;

    memset(data_in, 0xEE, room);
    memset(before_in, 0xEE, room);
    memset(&reply, 0xDD, sizeof reply);
    memcpy(&before, &reply, sizeof reply);
    WANT(is_refused_command(NULL, 0, room, MDL_NULL_POINTER));
    WANT(mdl_execute(&disk, 0, NULL, 6, NULL, 0, data_in, room, &reply) == MDL_NULL_POINTER);
    WANT(mdl_execute(&disk, 0, ready, 6, NULL, 1, data_in, room, &reply) == MDL_NULL_POINTER);
    WANT(mdl_execute(&disk, 0, ready, 6, NULL, 0, NULL, room, &reply) == MDL_NULL_POINTER);
    WANT(mdl_execute(&disk, 0, ready, 6, NULL, 0, data_in, room, NULL) == MDL_NULL_POINTER);
    WANT(is_refused_command(&disk, 8, room, MDL_NO_INITIATOR));
    WANT(is_refused_command(&disk, 256, room, MDL_NO_INITIATOR));
    WANT(is_refused_command(&no_disk, 0, room, MDL_NO_DISK));
    WANT(is_refused_command(&no_disk, 8, room, MDL_NO_DISK));
    WANT(mdl_execute(&no_disk, 0, inquiry, 6, NULL, 0, data_in, 35, &reply) == MDL_NO_DISK);
    WANT(mdl_execute(&disk, 8, inquiry, 6, NULL, 0, data_in, 35, &reply) == MDL_NO_INITIATOR);
    WANT(mdl_execute(&disk, 0, inquiry, 6, NULL, 0, data_in, 35, &reply) == MDL_BUFFER_TOO_SHORT);
    WANT(mdl_execute(&disk, 0, inquiry, 6, NULL, 0, NULL, 0, &reply) == MDL_BUFFER_TOO_SHORT);
    WANT(mdl_power_cycle(NULL) == MDL_NULL_POINTER && mdl_power_cycle(&no_disk) == MDL_NO_DISK);
    WANT(is_untouched() && disk.target == target);
}

/* Reads the fields of the reply's sense data, after others. */
static mdl_sense fields_read(void)
{
    mdl_sense fields;

    memset(&fields, 0xFF, sizeof fields);
    WANT(mdl_read_sense(reply.sense, reply.sense_length, &fields) == MDL_OK);
    return fields;
}

static void read_sense(void)
{
    static const uint8_t past[10] = { 0x28, [5] = 63, [8] = 2 };
    static const uint8_t page_without_evpd[6] = { 0x12, 0, 0x80, 0, 36 };
    static const uint8_t select[6] = { 0x15, 0x10, 0, 0, 16 };
    static const uint8_t bad_medium_type[16] = { 0, 1, 0, 0, 0x0A, 0x0A };
    mdl_sense fields;

    /* The unit attention, POWER ON, is still pending: no refused command was executed. */
    WANT(status_of(ready, 6, NULL, 0) == MDL_CHECK_CONDITION);
    WANT(reply.sense[2] == 6 && reply.sense[12] == 0x29 && reply.data_in_length == 0);
    fields = fields_read();
    WANT(fields.key == 6 && fields.asc == 0x29 && fields.ascq == 0);
    WANT(!fields.has_information && fields.information == 0);
    WANT(!fields.has_pointer && !fields.in_command && fields.byte == 0);
    WANT(mdl_read_sense(reply.sense, 3, &fields) == MDL_UNREADABLE && fields.key == 6);
    WANT(mdl_read_sense(NULL, 0, &fields) == MDL_UNREADABLE && fields.key == 6);
    WANT(mdl_read_sense(NULL, 18, &fields) == MDL_NULL_POINTER && fields.key == 6);
    WANT(mdl_read_sense(reply.sense, 18, NULL) == MDL_NULL_POINTER);
    WANT(mdl_exit_status(&reply) == 6 && mdl_exit_status(NULL) == 99);

    WANT(status_of(NULL, 0, NULL, 0) == MDL_CHECK_CONDITION);
    WANT(status_of(past, 10, NULL, 0) == MDL_CHECK_CONDITION);
    fields = fields_read();
    WANT(fields.key == 5 && fields.asc == 0x21 && fields.ascq == 0);
    WANT(fields.has_information == 1 && fields.information == 64 && !fields.has_pointer);
    WANT(status_of(select, 6, bad_medium_type, 16) == MDL_CHECK_CONDITION);
    fields = fields_read();
    WANT(fields.key == 5 && fields.asc == 0x26 && fields.ascq == 0 && !fields.has_information);
    WANT(fields.has_pointer == 1 && fields.in_command == 0 && fields.byte == 1);
    WANT(status_of(page_without_evpd, 6, NULL, 0) == MDL_CHECK_CONDITION);
    fields = fields_read();
    WANT(fields.key == 5 && fields.asc == 0x24 && fields.ascq == 0 && !fields.has_information);
    WANT(fields.has_pointer == 1 && fields.in_command == 1 && fields.byte == 2);
    WANT(mdl_exit_status(&reply) == 5);
}

/* Returns 1 if INQUIRY and the pages 80h and 83h show the texts and the number of an identity. */
static int has_identity(const char *texts, const char *serial, uint8_t local)
{
    static const uint8_t inquiry[6] = { 0x12, 0, 0, 0, 36 }, page_80[6] = { 0x12, 1, 0x80, 0, 255 };
    static const uint8_t page_83[6] = { 0x12, 1, 0x83, 0, 255 };
    static const uint8_t nothing[7] = { 0 };

    if (status_of(inquiry, 6, NULL, 0) || reply.data_in_length != 36)
        return 0;
    if (memcmp(data_in + 8, texts, 28))
        return 0;
    if (status_of(page_80, 6, NULL, 0) || reply.data_in_length != 12)
        return 0;
    if (memcmp(data_in + 4, serial, 8))
        return 0;
    return status_of(page_83, 6, NULL, 0) == MDL_GOOD && reply.data_in_length == 52
        && data_in[44] == 0x30 && !memcmp(data_in + 45, nothing, 6) && data_in[51] == local;
}

static void show_identities(void)
{
    static const mdl_identity standard = MDL_STANDARD_IDENTITY;
    static const char texts[] = "SGMODEL THIN DISK       0100";
    mdl_disk kept = disk;

    memset(data_in, 0xEE, sizeof data_in);
    WANT(has_identity("ACME    DISK            0200", "00000042", 42));
    WANT(data_in[52] == 0xEE);
    memset(&disk, 0, sizeof disk);
    WANT(mdl_make(&disk, 64, 4, NULL) == MDL_OK && has_identity(texts, "00000001", 1));
    mdl_free(&disk);
    WANT(mdl_make(&disk, 64, 4, &standard) == MDL_OK && has_identity(texts, "00000001", 1));
    mdl_free(&disk);
    disk = kept;
}

/* Commands of each kind. Each ends with GOOD after the one before it. */
static const struct {
    uint8_t cdb[MDL_CDB_LENGTH];
    uint8_t length, list[24];
    size_t data_out_length;
} commands[] = {
    { { 0x00 }, 6, { 0 }, 0 },                                         /* TEST UNIT READY */
    { { 0x12, 0, 0, 0, 36 }, 6, { 0 }, 0 },                            /* INQUIRY */
    { { 0x2A, [8] = 3 }, 10, { 0 }, 3 * MDL_BLOCK_LENGTH },            /* WRITE */
    { { 0x28, [8] = 4 }, 10, { 0 }, 0 },                               /* READ */
    { { 0x42, [8] = 24 }, 10, { 0, 22, 0, 16, [15] = 1, [19] = 1 }, 24 }, /* UNMAP */
    { { 0x42, 1, [8] = 24 }, 10, { 0, 22, 0, 16, [15] = 9, [19] = 1 }, 24 }, /* and ANCHOR */
    { { 0x93, 0, [9] = 9, [13] = 2 }, 16, { 0 }, MDL_BLOCK_LENGTH },   /* WRITE SAME */
    { { 0x93, 8, [9] = 8, [13] = 2 }, 16, { 0 }, MDL_BLOCK_LENGTH },   /* and UNMAP */
    { { 0x9E, 0x12, [13] = 72 }, 16, { 0 }, 0 },                       /* GET LBA STATUS */
    { { 0x15, 0x11, 0, 0, 16 }, 6, { [4] = 0x0A, 0x0A, 4 }, 16 },      /* MODE SELECT */
    { { 0x1A, 0, 0x3F, 0, 255 }, 6, { 0 }, 0 },                        /* MODE SENSE */
    { { 0x5F, 0, [8] = 24 }, 10, { [15] = 1, [20] = 1 }, 24 },         /* REGISTER */
    { { 0x5F, 1, 1, [8] = 24 }, 10, { [7] = 1 }, 24 },                 /* RESERVE */
    { { 0x5E, 0, [8] = 255 }, 10, { 0 }, 0 },                          /* READ KEYS */
    { { 0x5E, 3, [8] = 255 }, 10, { 0 }, 0 },                          /* READ FULL STATUS */
    { { 0x03, 0, 0, 0, 252 }, 6, { 0 }, 0 },                           /* REQUEST SENSE */
};

/* No command takes memory, not even a refused one. A power cycle takes none either. */
static void take_no_memory(void)
{
    static uint8_t bytes[3 * MDL_BLOCK_LENGTH];
    const unsigned long taken = requests;
    const long held_before = held;
    mdl_sense fields;
    size_t at;

    for (at = 0; at < sizeof commands / sizeof *commands; at++) {
        memset(bytes, 0, sizeof bytes);
        memcpy(bytes, commands[at].list, sizeof commands[at].list);
        WANT(status_of(commands[at].cdb, commands[at].length, bytes, commands[at].data_out_length)
             == MDL_GOOD);
        WANT(requests == taken && held == held_before);
    }
    WANT(mdl_power_cycle(&disk) == MDL_OK && status_of(ready, 6, NULL, 0) == MDL_CHECK_CONDITION);
    WANT(mdl_read_sense(reply.sense, reply.sense_length, &fields) == MDL_OK && fields.key == 6);
    WANT(mdl_exit_status(&reply) == 6 && requests == taken && held == held_before);
}

/* None of 10,000 random commands takes memory, whatever status it ends with, and nothing that happens
 * between them does. */
static void take_no_memory_at_random(void)
{
    unsigned long taken, good = 0, checks = 0, conflicts = 0, happened = 0;
    mdl_disk other = MDL_NONE;
    struct command c;
    mdl_sense fields;
    uint64_t seed = 1;
    int number;

    WANT(mdl_make(&other, 4096, 16, NULL) == MDL_OK);
    taken = requests;
    for (number = 0; number < 10000; number++) {
        next_event(MDL_PROFILE_BASE, &c, &seed);
        if (c.is_happening) {
            WANT(mdl_happen(&other, &c.happening) == MDL_OK && requests == taken);
            happened++;
            continue;
        }
        WANT(mdl_execute(&other, c.initiator, c.cdb, c.cdb_length, c.data_out, c.data_out_length,
                         data_in, sizeof data_in, &reply) == MDL_OK);
        WANT((mdl_read_sense(reply.sense, reply.sense_length, &fields) == MDL_OK)
             == (reply.status == MDL_CHECK_CONDITION));
        WANT((mdl_exit_status(&reply) == 0) == (reply.status == MDL_GOOD));
        good += reply.status == MDL_GOOD;
        checks += reply.status == MDL_CHECK_CONDITION;
        conflicts += reply.status == MDL_RESERVATION_CONFLICT;
        WANT(requests == taken);
    }
    WANT(good > 1000 && checks > 1000 && conflicts > 500 && happened > 500);
    WANT(good + checks + conflicts + happened == 10000);
    mdl_free(&other);
}

/* A READ or a WRITE of `count` blocks, whose counts are in the reply then. */
static void access_blocks(uint8_t opcode, uint8_t lba, uint8_t count)
{
    static const uint8_t bytes[64 * MDL_BLOCK_LENGTH];
    const uint8_t cdb[10] = { opcode, [5] = lba, [8] = count };

    WANT(status_of(cdb, sizeof cdb, bytes, sizeof bytes) == MDL_GOOD);
}

/* The rules are in crates/sg_block_map/specs/RunCost.antt, and the disk has 17 maximal runs. A
 * command visits each run that its range meets, and at most two records more. It compares at most 6
 * addresses, because 17 < 2^5. It follows at most as many links as the runs that its range meets or
 * touches have blocks. The store follows a link for each block before the block that it reads,
 * because the slots of a run are a chain (docs/ARCHITECTURE.md). */
static void count_visits(void)
{
    mdl_disk kept = disk;
    uint8_t lba;

    memset(&disk, 0, sizeof disk);
    WANT(mdl_make(&disk, 256, 64, NULL) == MDL_OK);
    WANT(status_of(ready, 6, NULL, 0) == MDL_CHECK_CONDITION);
    WANT(reply.visits == 0 && reply.probes == 0 && reply.links == 0);
    access_blocks(0x2A, 0, 40);
    for (lba = 100; lba < 132; lba += 2)
        access_blocks(0x2A, lba, 1);
    access_blocks(0x28, 39, 1);
    WANT(reply.visits >= 1 && reply.visits <= 3 && reply.probes <= 6);
    WANT(reply.links > 6 && reply.links <= 40);
    access_blocks(0x28, 100, 32);
    WANT(reply.visits >= 16 && reply.visits <= 18 && reply.probes <= 6 && reply.links <= 16);
    mdl_free(&disk);
    disk = kept;
}

static void show_version(void)
{
    char text[200], short_text[10];
    size_t length = mdl_version(text, sizeof text);

    WANT(length == strlen(text) && !strncmp(text, "mehdalung ", 10));
    WANT(mdl_version(short_text, sizeof short_text) == length && !strcmp(short_text, "mehdalung"));
    WANT(mdl_version(NULL, 0) == length && mdl_version(text, 0) == length);
    WANT(mdl_version(NULL, 1) == MDL_NO_TEXT);
    puts(text);
}

int main(void)
{
    const long held_before = held;

    make_disks();
    refuse_commands();
    read_sense();
    show_identities();
    take_no_memory();
    take_no_memory_at_random();
    count_visits();
    mdl_free(&disk);
    WANT(!disk.target && mdl_power_cycle(&disk) == MDL_NO_DISK && held == held_before);
    mdl_free(&disk);
    mdl_free(NULL);
    decode_every_length();
    decode_with_all_fields();
    plan_words();
    WANT(held == held_before);
    show_version();
    return failures != 0;
}
