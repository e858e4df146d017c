/* Random commands, from a seed.
 *     random script SEED COUNT       prints them as a script of sgrun.
 *     random run SEED COUNT          executes them by the library, and prints what sgrun prints.
 *     random shared SEED COUNT       does so by four threads, which take turns at one disk.
 *     random threads SEED COUNT DIR  does so for SEED to SEED + 3, by a thread with a disk for each,
 *                                    and prints into DIR/SEED.
 *     random events SEED COUNT       prints them as a script for a disk of the extended profile, with
 *                                    all that can happen between two commands.
 *     random extended SEED COUNT     executes them on such a disk, and prints what sgrun prints.
 *     random extended-cut SEED COUNT does so on a disk that takes too little data-out.
 *     random extended-512e SEED COUNT does so on a disk that reports physical blocks of 4,096 bytes.
 *     random kept SEED COUNT FILE    executes them on the disk of the extended profile that FILE keeps,
 *                                    or on a new one, and prints what sgrun prints. */
#include <inttypes.h>
#include <pthread.h>
#include <stdio.h>
#include <stdlib.h>
#include <string.h>

#include "commands.h"
#include "mehdalung.h"
#include "small_thread.h"

enum { BLOCKS = 4096, POOL = 16 };

static void put_hex(FILE *out, const uint8_t *bytes, size_t length, const char *between)
{
    static const char digits[] = "0123456789abcdef";
    size_t at;

    for (at = 0; at < length; at++) {
        fputs(between, out);
        putc(digits[bytes[at] >> 4], out);
        putc(digits[bytes[at] & 15], out);
    }
}

static void put_data_in(FILE *out, const uint8_t *bytes, size_t length)
{
    size_t at;

    for (at = 0; at < length; at += 16) {
        uint8_t offset[4] = { (uint8_t)(at >> 24), (uint8_t)(at >> 16), (uint8_t)(at >> 8), (uint8_t)at };

        fputs("  ", out);
        put_hex(out, offset, sizeof offset, "");
        putc(' ', out);
        put_hex(out, bytes + at, length - at < 16 ? length - at : 16, " ");
        putc('\n', out);
    }
}

static uint64_t big_endian(const uint8_t *bytes, size_t length)
{
    uint64_t number = 0;

    while (length--)
        number = number << 8 | *bytes++;
    return number;
}

static void put_pointer(FILE *out, const uint8_t *field)
{
    if (field[0] & 0x80)
        fprintf(out, ", %s byte %u", field[0] & 0x40 ? "command" : "list", field[1] << 8 | field[2]);
}

/* The sense line, read from either format. */
static void put_sense(FILE *out, const uint8_t *sense, size_t length)
{
    int fixed = (sense[0] & 0x7F) == 0x70;
    const uint8_t *codes = fixed ? sense + 12 : sense + 2;
    uint8_t key = sense[fixed ? 2 : 1] & 15;
    size_t at;

    fputs("  sense: ", out);
    switch (key) {
    case 0x0: fputs("NO SENSE", out); break;
    case 0x5: fputs("ILLEGAL REQUEST", out); break;
    case 0x6: fputs("UNIT ATTENTION", out); break;
    case 0x7: fputs("DATA PROTECT", out); break;
    case 0xB: fputs("ABORTED COMMAND", out); break;
    default: fprintf(out, "KEY %02Xh", key);
    }
    fprintf(out, ", %02Xh/%02Xh", codes[0], codes[1]);
    if (fixed) {
        if (sense[0] & 0x80)
            fprintf(out, ", information 0x%016" PRIx64, big_endian(sense + 3, 4));
        put_pointer(out, sense + 15);
    } else {
        for (at = 8; at + 4 < length; at += 2u + sense[at + 1]) {
            if (sense[at] == 0 && sense[at + 2] & 0x80)
                fprintf(out, ", information 0x%016" PRIx64, big_endian(sense + at + 4, 8));
            if (sense[at] == 2)
                put_pointer(out, sense + at + 4);
        }
    }
    putc('\n', out);
}

/* The line of a script, and what sgrun prints of it. */
static const struct {
    const char *verb, *printed;
} happenings[] = {
    [MDL_POWER_CYCLE] = { "power", "POWER" },
    [MDL_LOGICAL_UNIT_RESET] = { "reset", "RESET" },
    [MDL_TARGET_RESET] = { "reset target", "TARGET RESET" },
    [MDL_NEXUS_LOSS] = { "nexus", "NEXUS LOSS" },
    [MDL_ATTENTION] = { "attention", "ATTENTION" },
    [MDL_GROW] = { "grow", "GROW" },
};

static void print_happening(const struct command *c)
{
    const mdl_happening *it = &c->happening;

    fputs(happenings[it->kind].verb, stdout);
    if (it->kind == MDL_NEXUS_LOSS)
        printf(" %u", (unsigned)it->initiator);
    if (it->kind == MDL_GROW)
        printf(" %" PRIu64, it->blocks);
    if (it->kind == MDL_ATTENTION)
        printf(" %02Xh/%02Xh", (unsigned)it->asc, (unsigned)it->ascq);
    if (it->kind == MDL_ATTENTION && it->initiators != UINT64_MAX)
        printf(" %u", (unsigned)c->initiator);
    putchar('\n');
}

/* A base disk has only the power cycle among its verbs. */
static void next_of(mdl_profile profile, struct command *c, uint64_t *seed)
{
    if (profile == MDL_PROFILE_BASE)
        next_command(c, seed);
    else
        next_event(profile, c, seed);
}

static void print_script(mdl_profile profile, uint64_t seed, unsigned long count)
{
    struct command c;

    while (count--) {
        next_of(profile, &c, &seed);
        if (c.is_happening) {
            print_happening(&c);
            continue;
        }
        printf("raw %u ", (unsigned)c.initiator);
        put_hex(stdout, c.cdb, c.cdb_length, "");
        if (c.data_out_length) {
            putchar(' ');
            put_hex(stdout, c.data_out, c.data_out_length, "");
        }
        putchar('\n');
    }
}

/* A disk with the commands that it is still to execute, and where their replies are printed. */
struct run {
    mdl_disk disk;
    mdl_profile profile;
    uint8_t *data_in;
    uint64_t seed;
    unsigned long line, count;
    FILE *out;
    int status;
    pthread_mutex_t lock;
};

/* Makes a disk in memory if `path` is null. */
static mdl_error open_disk(struct run *it, const char *path)
{
    mdl_error error;

    if (!path)
        return mdl_make_with_profile(&it->disk, it->profile, BLOCKS, POOL, NULL);
    error = mdl_open(&it->disk, path, MDL_ANY_PROFILE, 0, 0, NULL, NULL);
    if (error != MDL_UNKNOWN_PROFILE)
        return error;
    return mdl_open(&it->disk, path, it->profile, BLOCKS, POOL, NULL, NULL);
}

static int begin_run(struct run *it, mdl_profile profile, uint64_t seed, unsigned long count,
                     FILE *out, const char *path)
{
    *it = (struct run){ .disk = MDL_NONE, .profile = profile, .seed = seed, .count = count,
                        .out = out, .lock = PTHREAD_MUTEX_INITIALIZER };
    it->data_in = malloc(MDL_BUFFER_LENGTH);
    return it->data_in && !open_disk(it, path) ? 0 : 99;
}

static void end_run(struct run *it)
{
    if (mdl_close(&it->disk))
        it->status = 99;
    free(it->data_in);
}

/* A power cycle has a function of its own, too. */
static mdl_error happen(struct run *it, const mdl_happening *happening)
{
    return it->profile == MDL_PROFILE_BASE ? mdl_power_cycle(&it->disk)
                                           : mdl_happen(&it->disk, happening);
}

/* Executes the next command. Not 0 if there is none, or if an error refuses it. */
static int next_line(struct run *it)
{
    static const char *const names[] = { "GOOD", "CHECK CONDITION", "RESERVATION CONFLICT" };
    struct command c;
    mdl_reply reply;

    if (it->status || it->line == it->count)
        return 1;
    it->line++;
    next_of(it->profile, &c, &it->seed);
    if (c.is_happening) {
        it->status = happen(it, &c.happening) ? 99 : 0;
        fprintf(it->out, "line %lu: %s\n", it->line, happenings[c.happening.kind].printed);
        return it->status;
    }
    if (mdl_execute(&it->disk, c.initiator, c.cdb, c.cdb_length, c.data_out, c.data_out_length,
                    it->data_in, MDL_BUFFER_LENGTH, &reply))
        return it->status = 99;
    fprintf(it->out, "line %lu: %s\n", it->line,
            names[reply.status == MDL_GOOD ? 0 : reply.status == MDL_CHECK_CONDITION ? 1 : 2]);
    if (reply.sense_length)
        put_sense(it->out, reply.sense, reply.sense_length);
    put_data_in(it->out, it->data_in, reply.data_in_length);
    return 0;
}

static int run(mdl_profile profile, uint64_t seed, unsigned long count, FILE *out,
               const char *path)
{
    struct run it;

    if (begin_run(&it, profile, seed, count, out, path))
        return 99;
    while (!next_line(&it))
        ;
    end_run(&it);
    return it.status;
}

/* A thread that takes turns with others at one disk. */
static void *take_turns(void *argument)
{
    struct run *it = argument;
    int is_over;

    do {
        pthread_mutex_lock(&it->lock);
        is_over = next_line(it);
        pthread_mutex_unlock(&it->lock);
    } while (!is_over);
    return NULL;
}

/* The thread that makes the disk executes nothing, and frees it after the others have. If one of
 * these can't be started, the program ends, because the others use `it`. */
static int run_shared(uint64_t seed, unsigned long count)
{
    pthread_t threads[4];
    struct run it;
    int at;

    if (begin_run(&it, MDL_PROFILE_BASE, seed, count, stdout, NULL))
        return 99;
    for (at = 0; at < 4; at++)
        if (start_small_thread(&threads[at], take_turns, &it))
            exit(99);
    for (at = 0; at < 4; at++)
        pthread_join(threads[at], NULL);
    end_run(&it);
    return it.status;
}

struct work {
    uint64_t seed;
    unsigned long count;
    const char *folder;
    int status;
};

static void *work(void *argument)
{
    struct work *it = argument;
    char name[4096];
    FILE *out;

    snprintf(name, sizeof name, "%s/%" PRIu64, it->folder, it->seed);
    out = fopen(name, "w");
    it->status = out ? run(MDL_PROFILE_BASE, it->seed, it->count, out, NULL) : 99;
    if (out && fclose(out))
        it->status = 99;
    return NULL;
}

static int run_threads(uint64_t seed, unsigned long count, const char *folder)
{
    pthread_t threads[4];
    struct work works[4];
    int at, status = 0;

    for (at = 0; at < 4; at++) {
        works[at] = (struct work){ seed + (uint64_t)at, count, folder, 99 };
        if (start_small_thread(&threads[at], work, &works[at]))
            exit(99);
    }
    for (at = 0; at < 4; at++) {
        pthread_join(threads[at], NULL);
        status |= works[at].status;
    }
    return status;
}

/* The words that run commands on a disk, by its profile. */
static const char *const runs[] = {
    [MDL_PROFILE_BASE] = "run",
    [MDL_PROFILE_EXTENDED] = "extended",
    [MDL_PROFILE_EXTENDED_CUT] = "extended-cut",
    [MDL_PROFILE_EXTENDED_512E] = "extended-512e",
};

int main(int count, char **words)
{
    uint32_t profile;
    uint64_t seed;
    unsigned long commands;

    if (count < 4)
        return 2;
    seed = strtoull(words[2], NULL, 10);
    commands = strtoul(words[3], NULL, 10);
    if (strcmp(words[1], "script") == 0 || strcmp(words[1], "events") == 0) {
        print_script(words[1][0] == 's' ? MDL_PROFILE_BASE : MDL_PROFILE_EXTENDED, seed, commands);
        return 0;
    }
    for (profile = MDL_PROFILE_BASE; profile <= MDL_PROFILE_EXTENDED_512E; profile++)
        if (strcmp(words[1], runs[profile]) == 0)
            return run((mdl_profile)profile, seed, commands, stdout, NULL);
    if (strcmp(words[1], "shared") == 0)
        return run_shared(seed, commands);
    if (count < 5)
        return 2;
    if (strcmp(words[1], "kept") == 0)
        return run(MDL_PROFILE_EXTENDED, seed, commands, stdout, words[4]);
    return run_threads(seed, commands, words[4]);
}
