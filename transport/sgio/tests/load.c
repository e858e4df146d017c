/* Not proved. Eight processes, each an initiator, use the path of $disk at once for some seconds.
 *     load SECONDS     runs in the environment of `join`, on a new disk of 4,096 blocks.
 * Each process has 32 blocks of its own. It writes, reads, unmaps and anchors them. It registers a key
 * and unregisters it. After half of the time one process is killed. The others have to end, with
 * their blocks as they left them. Each block of the killed one has to be whole. The program uses sg
 * as any other does. */
#include <errno.h>
#include <fcntl.h>
#include <inttypes.h>
#include <scsi/sg.h>
#include <signal.h>
#include <stdio.h>
#include <stdlib.h>
#include <string.h>
#include <sys/ioctl.h>
#include <sys/wait.h>
#include <time.h>
#include <unistd.h>

#include "random.h"

enum {
    PROCESSES = 8,
    KILLED = 3,
    OWN_BLOCKS = 32,
    BLOCK = 512,
    LONGEST = 60,            /* seconds more than asked for, after which it is a hang */
    UNIT_ATTENTION = 6,
    CHECK_CONDITION = 2
};

struct command {
    uint8_t cdb[16], cdb_length;
    uint8_t *data;
    uint32_t length;
    int direction;
};

static int node;

#define WANT(condition) \
    do { \
        if (!(condition)) { \
            fprintf(stderr, "load, line %d: not so: %s\n", __LINE__, #condition); \
            exit(1); \
        } \
    } while (0)

/* Executes a command, again where it reported a unit attention. Returns its status; the sense key
 * and the additional sense code in `key` and `code`. */
static int execute(const struct command *command, int *key, int *code)
{
    uint8_t sense[32];
    sg_io_hdr_t header;

    do {
        memset(&header, 0, sizeof header);
        memset(sense, 0, sizeof sense);
        header.interface_id = 'S';
        header.dxfer_direction = command->length ? command->direction : SG_DXFER_NONE;
        header.cmd_len = command->cdb_length;
        header.mx_sb_len = sizeof sense;
        header.dxfer_len = command->length;
        header.dxferp = command->length ? command->data : NULL;
        header.cmdp = (unsigned char *)(uintptr_t)command->cdb;
        header.sbp = sense;
        header.timeout = 10000;
        WANT(ioctl(node, SG_IO, &header) == 0 && header.host_status == 0);
        *key = header.sb_len_wr ? sense[2] & 15 : 0;
        *code = header.sb_len_wr ? sense[12] : 0;
    } while (header.status == CHECK_CONDITION && *key == UNIT_ATTENTION);
    return header.status;
}

static void expect_good(const struct command *command)
{
    int key, code;

    WANT(execute(command, &key, &code) == 0);
}

/* READ(10) or WRITE(10) of a block. */
static void move_block(uint8_t opcode, uint32_t block, uint8_t *data)
{
    struct command command = { .cdb = { opcode, 0, 0, 0, (uint8_t)(block >> 8), (uint8_t)block, 0, 0, 1 },
                               .cdb_length = 10, .data = data, .length = BLOCK,
                               .direction = opcode == 0x2A ? SG_DXFER_TO_DEV : SG_DXFER_FROM_DEV };

    expect_good(&command);
}

/* UNMAP of a block, with or without ANCHOR. */
static void unmap_block(uint32_t block, int anchor)
{
    uint8_t list[24] = { 0, 22, 0, 16, [14] = (uint8_t)(block >> 8), [15] = (uint8_t)block, [19] = 1 };
    struct command command = { .cdb = { 0x42, (uint8_t)anchor, 0, 0, 0, 0, 0, 0, 24 }, .cdb_length = 10,
                               .data = list, .length = sizeof list, .direction = SG_DXFER_TO_DEV };

    expect_good(&command);
}

/* REGISTER AND IGNORE EXISTING KEY; key 0 unregisters. Six at most are registered, so it may end with
 * INSUFFICIENT REGISTRATION RESOURCES. */
static int register_key(uint8_t key_byte)
{
    uint8_t list[24] = { [15] = key_byte };
    struct command command = { .cdb = { 0x5F, 6, 0, 0, 0, 0, 0, 0, 24 }, .cdb_length = 10, .data = list,
                               .length = sizeof list, .direction = SG_DXFER_TO_DEV };
    int key, code, status = execute(&command, &key, &code);

    WANT(status == 0 || (key == 5 && code == 0x55 && key_byte));
    return status == 0;
}

/* A block is filled with one number of eight bytes: its writer's, and how often it has written. */
static void fill(uint8_t *block, uint64_t number)
{
    size_t at;

    for (at = 0; at < BLOCK; at += sizeof number)
        memcpy(block + at, &number, sizeof number);
}

static uint64_t number_of(const uint8_t *block)
{
    uint64_t number, other;
    size_t at;

    memcpy(&number, block, sizeof number);
    for (at = 0; at < BLOCK; at += sizeof number) {
        memcpy(&other, block + at, sizeof other);
        WANT(other == number);
    }
    return number;
}

/* Works on its own blocks until the time is over, then looks at all of them. */
static unsigned long work(int initiator, time_t end)
{
    uint64_t expected[OWN_BLOCKS] = { 0 }, seed = (uint64_t)initiator + 1, number = 0;
    uint32_t first = (uint32_t)initiator * OWN_BLOCKS, own, choice;
    uint8_t block[BLOCK];
    unsigned long count = 0;

    while (time(NULL) < end) {
        own = below(&seed, OWN_BLOCKS);
        choice = below(&seed, 16);
        if (choice < 6) {
            expected[own] = (uint64_t)(initiator + 1) << 56 | ++number;
            fill(block, expected[own]);
            move_block(0x2A, first + own, block);
        } else if (choice < 13) {
            move_block(0x28, first + own, block);
            WANT(number_of(block) == expected[own]);
        } else if (choice < 15) {
            unmap_block(first + own, choice == 14);
            expected[own] = 0;
        } else if (register_key((uint8_t)(0xA0 + initiator))) {
            register_key(0);
        }
        count++;
    }
    for (own = 0; own < OWN_BLOCKS; own++) {
        move_block(0x28, first + own, block);
        WANT(number_of(block) == expected[own]);
    }
    return count;
}

static pid_t start(int initiator, time_t end)
{
    char text[2] = { (char)('0' + initiator), 0 };
    unsigned long count;
    pid_t process = fork();

    WANT(process >= 0);
    if (process > 0)
        return process;
    WANT(setenv("MDL_INITIATOR", text, 1) == 0);
    node = open(getenv("disk"), O_RDWR);
    WANT(node >= 0);
    count = work(initiator, end);
    printf("initiator %d: %lu commands\n", initiator, count);
    exit(0);
}

/* Checks the remains of the killed process: whole blocks of its own, and perhaps its
 * registration. */
static void look_at_killed(void)
{
    static const uint8_t own_key[8] = { [7] = 0xA0 + KILLED };
    uint8_t block[BLOCK], keys[64];
    struct command command = { .cdb = { 0x5E, 0, 0, 0, 0, 0, 0, 0, sizeof keys }, .cdb_length = 10,
                               .data = keys, .length = sizeof keys, .direction = SG_DXFER_FROM_DEV };
    uint32_t own;
    uint64_t number;

    for (own = 0; own < OWN_BLOCKS; own++) {
        move_block(0x28, KILLED * OWN_BLOCKS + own, block);
        number = number_of(block);
        WANT(number == 0 || number >> 56 == KILLED + 1);
    }
    expect_good(&command);
    WANT(keys[7] == 0 || (keys[7] == 8 && memcmp(keys + 8, own_key, sizeof own_key) == 0));
}

int main(int count, char **words)
{
    unsigned seconds = count == 2 ? (unsigned)strtoul(words[1], NULL, 10) : 0;
    time_t end = time(NULL) + seconds;
    pid_t processes[PROCESSES];
    int at, status;

    if (!getenv("disk") || seconds < 2)
        return 2;
    alarm(seconds + LONGEST);
    for (at = 0; at < PROCESSES; at++)
        processes[at] = start(at, end);
    sleep(seconds / 2);
    WANT(kill(processes[KILLED], SIGKILL) == 0);
    for (at = 0; at < PROCESSES; at++) {
        WANT(waitpid(processes[at], &status, 0) == processes[at]);
        WANT(at == KILLED ? WIFSIGNALED(status) : WIFEXITED(status) && WEXITSTATUS(status) == 0);
    }
    node = open(getenv("disk"), O_RDWR);
    WANT(node >= 0);
    look_at_killed();
    return 0;
}
