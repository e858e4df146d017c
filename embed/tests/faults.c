/* Faults that are armed on a disk of each profile: what each outcome does, which commands meet a
 * fault, how long it lasts, and each named error, after which nothing has changed. */
#include <stdio.h>
#include <stdlib.h>
#include <string.h>

#include "mehdalung.h"

static int failures;
#define WANT(condition) \
    do { \
        if (!(condition)) { \
            failures++; \
            fprintf(stderr, "line %d: not so: %s\n", __LINE__, #condition); \
        } \
    } while (0)

enum { BLOCKS = 64, POOL = 16, READ = 0x28, WRITE = 0x2A };
#define ALL UINT64_MAX
#define BIT_63 ((uint64_t)1 << 63)

static mdl_disk disk = MDL_NONE, no_disk = MDL_NONE;
static uint32_t last; /* the last initiator of the disk */
static uint8_t data_in[MDL_BUFFER_LENGTH];
static mdl_reply reply;

static int status_of(uint32_t initiator, const uint8_t *cdb, size_t length, const uint8_t *bytes,
                     size_t byte_count)
{
    WANT(mdl_execute(&disk, initiator, cdb, length, bytes, byte_count, data_in, sizeof data_in,
                     &reply) == MDL_OK);
    return reply.status;
}

static int test_ready(uint32_t initiator)
{
    static const uint8_t ready[6];

    return status_of(initiator, ready, sizeof ready, NULL, 0);
}

/* READ(10) or WRITE(10) of initiator 0. A WRITE fills its blocks with a byte. */
static int move_blocks(uint8_t opcode, uint8_t lba, uint8_t count, int byte)
{
    static uint8_t bytes[BLOCKS * MDL_BLOCK_LENGTH];
    const uint8_t cdb[10] = { opcode, [5] = lba, [8] = count };

    memset(bytes, byte, sizeof bytes);
    return status_of(0, cdb, sizeof cdb, bytes, opcode == WRITE ? count * MDL_BLOCK_LENGTH : 0);
}

/* A block that only has one byte. */
static int is_filled(uint8_t lba, int byte)
{
    size_t at;

    if (move_blocks(READ, lba, 1, 0) != MDL_GOOD || reply.data_in_length != MDL_BLOCK_LENGTH)
        return 0;
    for (at = 0; at < MDL_BLOCK_LENGTH; at++)
        if (data_in[at] != byte)
            return 0;
    return 1;
}

/* Sense data in fixed format: its response code, 70h or 71h, and its key and codes. */
static int senses(uint8_t response, uint8_t key, uint8_t asc, uint8_t ascq)
{
    return reply.status == MDL_CHECK_CONDITION && (reply.sense[0] & 0x7F) == response
        && (reply.sense[2] & 0x0F) == key && reply.sense[12] == asc && reply.sense[13] == ascq;
}

static mdl_error arm(mdl_fault fault)
{
    mdl_happening it = { .kind = MDL_ARM };

    it.fault = fault;
    return mdl_happen(&disk, &it);
}

/* A fault that meets all commands of some initiators. */
static mdl_error arm_outcome(uint32_t outcome, uint16_t times)
{
    const mdl_fault fault = { .initiators = ALL, .outcome = outcome, .times = times, .key = 4,
                              .asc = 0x44, .ascq = 0x01 };

    return arm(fault);
}

static mdl_error disarm(uint8_t number)
{
    const mdl_happening it = { .kind = MDL_DISARM, .number = number };

    return mdl_happen(&disk, &it);
}

/* Programs from before there were faults have records that end before the fault. */
static mdl_error happens(uint32_t kind)
{
    mdl_happening *it = malloc(offsetof(mdl_happening, fault));
    mdl_error error;

    if (!it)
        return MDL_OUT_OF_MEMORY;
    memset(it, 0, offsetof(mdl_happening, fault));
    memcpy(it, &kind, sizeof kind);
    error = mdl_happen(&disk, it);
    free(it);
    return error;
}

static void make_quiet(uint32_t profile)
{
    uint32_t initiator;

    mdl_free(&disk);
    WANT(mdl_make_with_profile(&disk, profile, BLOCKS, POOL, NULL) == MDL_OK);
    last = profile == MDL_PROFILE_BASE ? 7 : 63;
    for (initiator = 0; initiator <= last; initiator++)
        WANT(test_ready(initiator) == MDL_CHECK_CONDITION && test_ready(initiator) == MDL_GOOD);
}

/* The disk does not execute the command. Each initiator has a count of its own. */
static void stop_on_arrival(void)
{
    static const uint8_t inquiry[6] = { 0x12, [4] = 36 };

    WANT(arm_outcome(MDL_ARRIVAL_BUSY, 2) == MDL_OK);
    WANT(test_ready(0) == MDL_BUSY && reply.sense_length == 0 && reply.data_in_length == 0);
    WANT(test_ready(0) == MDL_BUSY && test_ready(0) == MDL_GOOD);
    WANT(test_ready(last) == MDL_BUSY && test_ready(last) == MDL_BUSY && test_ready(last) == MDL_GOOD);
    WANT(happens(MDL_DISARM_ALL) == MDL_OK && test_ready(1) == MDL_GOOD);

    WANT(arm_outcome(MDL_ARRIVAL_TASK_SET_FULL, 1) == MDL_OK);
    WANT(status_of(0, inquiry, sizeof inquiry, NULL, 0) == MDL_TASK_SET_FULL);
    WANT(reply.data_in_length == 0 && status_of(0, inquiry, sizeof inquiry, NULL, 0) == MDL_GOOD);
    WANT(reply.data_in_length == 36 && happens(MDL_DISARM_ALL) == MDL_OK);

    WANT(arm_outcome(MDL_ARRIVAL_RESERVATION_CONFLICT, 1) == MDL_OK);
    WANT(test_ready(3) == MDL_RESERVATION_CONFLICT && test_ready(3) == MDL_GOOD);
    WANT(happens(MDL_DISARM_ALL) == MDL_OK);

    WANT(arm_outcome(MDL_ARRIVAL_NO_REPLY, 1) == MDL_OK);
    WANT(move_blocks(WRITE, 5, 1, 0xEE) == MDL_NO_REPLY && reply.sense_length == 0);
    WANT(is_filled(5, 0) && happens(MDL_DISARM_ALL) == MDL_OK);

    WANT(arm_outcome(MDL_ARRIVAL_CHECK_CONDITION, 1) == MDL_OK);
    WANT(test_ready(2) == MDL_CHECK_CONDITION && senses(0x70, 4, 0x44, 0x01));
    WANT(test_ready(2) == MDL_GOOD && happens(MDL_DISARM_ALL) == MDL_OK);

    WANT(arm_outcome(MDL_ARRIVAL_DEFERRED_ERROR, 1) == MDL_OK);
    WANT(test_ready(2) == MDL_CHECK_CONDITION && senses(0x71, 4, 0x44, 0x01));
    WANT(test_ready(2) == MDL_GOOD && happens(MDL_DISARM_ALL) == MDL_OK);
}

/* A bad medium: unreadable blocks that a WRITE heals, and lost writes. */
static void stop_at_medium(void)
{
    const mdl_fault unreadable = { .initiators = 1, .outcome = MDL_MEDIUM_CHECK_CONDITION,
                                   .lba = 20, .count = 2, .healed_by_writes = 1, .key = 3,
                                   .asc = 0x11 };
    const mdl_fault lost = { .initiators = 1, .outcome = MDL_MEDIUM_MOVES_ONLY, .has_code = 1,
                             .code = WRITE, .times = 1 };
    mdl_fault torn = lost;
    mdl_sense fields;

    WANT(move_blocks(WRITE, 18, 8, 0x11) == MDL_GOOD && arm(unreadable) == MDL_OK);
    WANT(move_blocks(READ, 18, 2, 0) == MDL_GOOD && move_blocks(READ, 22, 4, 0) == MDL_GOOD);
    WANT(move_blocks(READ, 18, 8, 0) == MDL_CHECK_CONDITION && senses(0x70, 3, 0x11, 0x00));
    WANT(mdl_read_sense(reply.sense, reply.sense_length, &fields) == MDL_OK);
    WANT(fields.has_information && fields.information == 20);
    WANT(move_blocks(READ, 21, 1, 0) == MDL_CHECK_CONDITION && senses(0x70, 3, 0x11, 0x00));
    WANT(move_blocks(WRITE, 20, 1, 0x22) == MDL_CHECK_CONDITION);
    WANT(move_blocks(WRITE, 20, 2, 0x22) == MDL_GOOD && is_filled(20, 0x22) && is_filled(21, 0x22));

    WANT(arm(lost) == MDL_OK && move_blocks(READ, 18, 1, 0) == MDL_GOOD);
    WANT(move_blocks(WRITE, 18, 4, 0x33) == MDL_GOOD);
    WANT(is_filled(18, 0x11) && is_filled(20, 0x22));
    torn.blocks = 3;
    WANT(arm(torn) == MDL_OK && move_blocks(WRITE, 18, 4, 0x44) == MDL_GOOD);
    WANT(is_filled(18, 0x44) && is_filled(20, 0x44) && is_filled(21, 0x22));
    WANT(move_blocks(WRITE, 18, 4, 0x55) == MDL_GOOD && is_filled(21, 0x55));
}

/* The command was executed, and its data-in is there. */
static void stop_afterwards(void)
{
    WANT(move_blocks(WRITE, 5, 1, 0x66) == MDL_GOOD);
    WANT(arm_outcome(MDL_AFTER_NO_REPLY, 1) == MDL_OK);
    WANT(move_blocks(READ, 5, 1, 0) == MDL_NO_REPLY && reply.sense_length == 0);
    WANT(reply.data_in_length == MDL_BLOCK_LENGTH && data_in[0] == 0x66);
    WANT(happens(MDL_DISARM_ALL) == MDL_OK && arm_outcome(MDL_AFTER_CHECK_CONDITION, 1) == MDL_OK);
    WANT(move_blocks(WRITE, 5, 1, 0x77) == MDL_CHECK_CONDITION && senses(0x70, 4, 0x44, 0x01));
    WANT(is_filled(5, 0x77) && happens(MDL_DISARM_ALL) == MDL_OK);
}

/* Only the first bytes of data-in arrive. A command with fewer returns all of its data-in. */
static void stop_short(void)
{
    const mdl_fault fault = { .initiators = 1, .outcome = MDL_AFTER_SHORT_DATA_IN, .blocks = 700 };

    WANT(move_blocks(WRITE, 6, 2, 0x88) == MDL_GOOD && arm(fault) == MDL_OK);
    WANT(move_blocks(READ, 6, 2, 0) == MDL_GOOD && reply.sense_length == 0);
    WANT(reply.data_in_length == 700 && data_in[0] == 0x88 && data_in[699] == 0x88);
    WANT(move_blocks(READ, 6, 1, 0) == MDL_GOOD && reply.data_in_length == MDL_BLOCK_LENGTH);
    WANT(move_blocks(WRITE, 6, 2, 0x99) == MDL_GOOD && reply.data_in_length == 0);
    WANT(happens(MDL_DISARM_ALL) == MDL_OK && is_filled(6, 0x99) && is_filled(7, 0x99));
}

/* The text of the armed faults, cut to a buffer, and when there is none. */
static void list_them(void)
{
    static const char whole[] = "  0: arrival busy times 2 to 1\n    to 1: times 1\n"
                                "  1: medium 3/11/00 blocks 10 2 healed to 0\n";
    const mdl_fault busy = { .initiators = 2, .outcome = MDL_ARRIVAL_BUSY, .times = 2 };
    const mdl_fault bad = { .initiators = 1, .outcome = MDL_MEDIUM_CHECK_CONDITION, .lba = 10,
                            .count = 2, .healed_by_writes = 1, .key = 3, .asc = 0x11 };
    char text[sizeof whole + 1], cut[8];

    memset(text, 'x', sizeof text);
    WANT(mdl_faults(&disk, text, sizeof text) == 0 && text[0] == '\0' && text[1] == 'x');
    WANT(arm(busy) == MDL_OK && arm(bad) == MDL_OK && test_ready(1) == MDL_BUSY);
    WANT(mdl_faults(&disk, NULL, 0) == sizeof whole - 1);
    WANT(mdl_faults(&disk, text, sizeof text) == sizeof whole - 1 && strcmp(text, whole) == 0);
    WANT(text[sizeof whole] == 'x');
    WANT(mdl_faults(&disk, cut, sizeof cut) == sizeof whole - 1 && strcmp(cut, "  0: ar") == 0);
    WANT(mdl_faults(NULL, cut, sizeof cut) == MDL_NO_TEXT && mdl_faults(&disk, NULL, 1) == MDL_NO_TEXT);
    WANT(mdl_faults(&no_disk, cut, sizeof cut) == MDL_NO_TEXT && strcmp(cut, "  0: ar") == 0);
    WANT(test_ready(1) == MDL_BUSY && test_ready(1) == MDL_GOOD);
    WANT(happens(MDL_DISARM_ALL) == MDL_OK && mdl_faults(&disk, text, sizeof text) == 0);
}

static int lists(const char *whole)
{
    char text[256] = "";

    return mdl_faults(&disk, text, sizeof text) == strlen(whole) && strcmp(text, whole) == 0;
}

/* A fault may name only initiators that the disk has. A base disk refuses each of these faults, and any other
 * disk arms it. */
static void name_some(void)
{
    static const uint64_t masks[] = {
        0x100, 0x101, 0x1FF, 0x100000001, BIT_63, BIT_63 | 0xFF, ALL - 1, ALL - 0xFF, ALL >> 1
    };
    mdl_fault busy = { .outcome = MDL_ARRIVAL_BUSY, .times = 1 };
    uint32_t initiator;
    size_t at;

    for (at = 0; at < sizeof masks / sizeof *masks; at++) {
        busy.initiators = masks[at];
        WANT(arm(busy) == (last < 63 ? MDL_NO_INITIATOR : MDL_OK) && lists("") == (last < 63));
        for (initiator = 0; initiator <= last; initiator++) {
            const int is_met = last == 63 && masks[at] >> initiator & 1;

            WANT(test_ready(initiator) == (is_met ? MDL_BUSY : MDL_GOOD));
        }
        WANT(lists(""));
    }
}

/* A fault for the last initiator, and for no other. */
static void meet_the_last(void)
{
    const mdl_fault busy = { .initiators = (uint64_t)1 << last, .outcome = MDL_ARRIVAL_BUSY, .times = 1 };
    uint32_t initiator;

    WANT(arm(busy) == MDL_OK);
    for (initiator = 0; initiator < last; initiator++)
        WANT(test_ready(initiator) == MDL_GOOD);
    WANT(lists(last < 63 ? "  0: arrival busy times 1 to 7\n    to 7: times 1\n"
                         : "  0: arrival busy times 1 to 63\n"));
    WANT(test_ready(last) == MDL_BUSY && lists("") && test_ready(last) == MDL_GOOD);
}

/* The disk lists one fault by its words. Below it a base disk lists what is left for each initiator of the
 * fault, and any other disk only what has changed. */
static int lists_left(const char *words, const char *of_each, const char *changed)
{
    char whole[256];

    snprintf(whole, sizeof whole, "  0: arrival busy%s\n%s", words, last < 63 ? of_each : changed);
    return lists(whole);
}

#define LEFT_FOR_1_TO_7 \
    "    to 1: times 1\n    to 2: times 1\n    to 3: times 1\n    to 4: times 1\n" \
    "    to 5: times 1\n    to 6: times 1\n    to 7: times 1\n"

/* UINT64_MAX names each initiator of the disk, and 0xFF each of a base disk. The fault is gone when it has
 * stopped a command of each. */
static void meet_all(void)
{
    static const char of_eight[] = "  0: arrival busy times 1\n    to 0: times 1\n" LEFT_FOR_1_TO_7;
    mdl_fault busy = { .initiators = 0xFF, .outcome = MDL_ARRIVAL_BUSY, .times = 1 };
    uint32_t initiator;

    WANT(arm_outcome(MDL_ARRIVAL_BUSY, 1) == MDL_OK);
    WANT(lists(last < 63 ? of_eight : "  0: arrival busy times 1\n"));
    WANT(test_ready(0) == MDL_BUSY && test_ready(0) == MDL_GOOD);
    WANT(lists_left(" times 1", "    to 0: times 0\n" LEFT_FOR_1_TO_7, "    to 0: times 0\n"));
    for (initiator = 1; initiator <= last; initiator++)
        WANT(!lists("") && test_ready(initiator) == MDL_BUSY);
    WANT(lists("") && test_ready(last) == MDL_GOOD);

    WANT(arm(busy) == MDL_OK);
    WANT(lists(last < 63 ? of_eight
                         : "  0: arrival busy times 1 to 0 to 1 to 2 to 3 to 4 to 5 to 6 to 7\n"));
    for (initiator = 0; initiator < 8; initiator++)
        WANT(!lists("") && test_ready(initiator) == MDL_BUSY);
    WANT(lists("") && test_ready(last) == MDL_GOOD);

    busy.times = 0;
    busy.initiators = ALL;
    WANT(arm(busy) == MDL_OK);
    for (initiator = 0; initiator <= last; initiator++)
        WANT(test_ready(initiator) == MDL_BUSY && test_ready(initiator) == MDL_BUSY);
    WANT(lists("  0: arrival busy\n"));
    WANT(happens(MDL_DISARM_ALL) == MDL_OK && test_ready(last) == MDL_GOOD);
}

/* What is left of a fault for an initiator: `skip` while it is not 0, and `times`, even if it is 0. If a
 * fault without `times` has no `skip` left, a base disk lists nothing, and any other disk `skip 0`. */
static void count_down(void)
{
    const mdl_fault both = { .initiators = 3, .outcome = MDL_ARRIVAL_BUSY, .skip = 2, .times = 2 };
    const mdl_fault only_skip = { .initiators = 3, .outcome = MDL_ARRIVAL_BUSY, .skip = 2 };

    WANT(arm(both) == MDL_OK);
    WANT(lists_left(" skip 2 times 2 to 0 to 1",
                    "    to 0: skip 2 times 2\n    to 1: skip 2 times 2\n", ""));
    WANT(test_ready(1) == MDL_GOOD);
    WANT(lists_left(" skip 2 times 2 to 0 to 1",
                    "    to 0: skip 2 times 2\n    to 1: skip 1 times 2\n",
                    "    to 1: skip 1 times 2\n"));
    WANT(test_ready(1) == MDL_GOOD);
    WANT(lists_left(" skip 2 times 2 to 0 to 1",
                    "    to 0: skip 2 times 2\n    to 1: times 2\n", "    to 1: times 2\n"));
    WANT(test_ready(1) == MDL_BUSY && test_ready(0) == MDL_GOOD);
    WANT(lists("  0: arrival busy skip 2 times 2 to 0 to 1\n    to 0: skip 1 times 2\n"
               "    to 1: times 1\n"));
    WANT(test_ready(1) == MDL_BUSY && test_ready(1) == MDL_GOOD);
    WANT(lists("  0: arrival busy skip 2 times 2 to 0 to 1\n    to 0: skip 1 times 2\n"
               "    to 1: times 0\n"));
    WANT(test_ready(0) == MDL_GOOD && test_ready(0) == MDL_BUSY && test_ready(0) == MDL_BUSY && lists(""));

    WANT(arm(only_skip) == MDL_OK);
    WANT(lists_left(" skip 2 to 0 to 1", "    to 0: skip 2\n    to 1: skip 2\n", ""));
    WANT(test_ready(1) == MDL_GOOD);
    WANT(lists_left(" skip 2 to 0 to 1", "    to 0: skip 2\n    to 1: skip 1\n", "    to 1: skip 1\n"));
    WANT(test_ready(1) == MDL_GOOD);
    WANT(lists_left(" skip 2 to 0 to 1", "    to 0: skip 2\n", "    to 1: skip 0\n"));
    WANT(test_ready(1) == MDL_BUSY && test_ready(0) == MDL_GOOD && test_ready(0) == MDL_GOOD);
    WANT(lists_left(" skip 2 to 0 to 1", "", "    to 0: skip 0\n    to 1: skip 0\n"));
    WANT(happens(MDL_DISARM_ALL) == MDL_OK && test_ready(0) == MDL_GOOD);
}

/* Only the commands of some initiators with a code, after others. Faults outlive a power cycle. */
static void meet_some(void)
{
    const mdl_fault fault = { .initiators = 0x42, .outcome = MDL_ARRIVAL_BUSY, .has_code = 1,
                              .code = 0x00, .skip = 2, .times = 1 };
    int time;

    WANT(arm(fault) == MDL_OK && move_blocks(READ, 0, 1, 0) == MDL_GOOD);
    for (time = 0; time < 4; time++)
        WANT(test_ready(0) == MDL_GOOD);
    WANT(test_ready(1) == MDL_GOOD && test_ready(1) == MDL_GOOD);
    WANT(happens(MDL_POWER_CYCLE) == MDL_OK && happens(MDL_TARGET_RESET) == MDL_OK);
    WANT(test_ready(1) == MDL_BUSY && test_ready(1) == MDL_CHECK_CONDITION);
    WANT(test_ready(1) == MDL_GOOD);
    WANT(test_ready(6) == MDL_CHECK_CONDITION && test_ready(6) == MDL_GOOD);
    WANT(test_ready(6) == MDL_BUSY && test_ready(6) == MDL_GOOD);
    WANT(test_ready(0) == MDL_CHECK_CONDITION && test_ready(0) == MDL_GOOD);
}

/* Eight faults have the numbers 0 to 7. The lowest decides, and the lowest free one is taken. */
static void fill_the_numbers(void)
{
    mdl_fault fault = { .initiators = 1, .outcome = MDL_ARRIVAL_CHECK_CONDITION };
    const mdl_fault of_another = { .initiators = 0x100 };
    uint8_t number;

    for (number = 0; number < MDL_MOST_FAULTS; number++) {
        fault.asc = number;
        WANT(arm(fault) == MDL_OK);
    }
    WANT(arm(fault) == MDL_FAULTS && arm_outcome(MDL_ARRIVAL_BUSY, 0) == MDL_FAULTS);
    WANT(arm_outcome(11, 0) == MDL_UNKNOWN_FAULT && disarm(8) == MDL_FAULT_NUMBER);
    WANT(arm(of_another) == (last < 63 ? MDL_NO_INITIATOR : MDL_FAULTS));
    for (number = 0; number < MDL_MOST_FAULTS; number++) {
        WANT(test_ready(0) == MDL_CHECK_CONDITION && senses(0x70, 0, number, 0));
        WANT(test_ready(1) == MDL_GOOD && disarm(number) == MDL_OK && disarm(number) == MDL_OK);
    }
    WANT(test_ready(0) == MDL_GOOD);
    for (number = 0; number < MDL_MOST_FAULTS; number++) {
        fault.asc = number;
        WANT(arm(fault) == MDL_OK);
    }
    fault.asc = 0x99;
    WANT(disarm(5) == MDL_OK && arm(fault) == MDL_OK && arm(fault) == MDL_FAULTS);
    for (number = 0; number < 5; number++)
        WANT(disarm(number) == MDL_OK);
    WANT(test_ready(0) == MDL_CHECK_CONDITION && senses(0x70, 0, 0x99, 0));
    WANT(happens(MDL_DISARM_ALL) == MDL_OK && test_ready(0) == MDL_GOOD);
}

static const struct {
    mdl_fault fault;
    mdl_error error;
} refused[] = {
    { { .initiators = ALL, .outcome = 11 }, MDL_UNKNOWN_FAULT },
    { { .outcome = 256, .has_code = 2 }, MDL_UNKNOWN_FAULT },
    { { .initiators = ALL, .outcome = UINT32_MAX, .key = 16 }, MDL_UNKNOWN_FAULT },
    { { .outcome = MDL_ARRIVAL_CHECK_CONDITION, .key = 16, .has_code = 2 }, MDL_SENSE_KEY },
    { { .initiators = 1, .outcome = MDL_ARRIVAL_DEFERRED_ERROR, .key = 16 }, MDL_SENSE_KEY },
    { { .initiators = 1, .outcome = MDL_MEDIUM_CHECK_CONDITION, .key = 0x83 }, MDL_SENSE_KEY },
    { { .initiators = 1, .outcome = MDL_MEDIUM_CHECK_CONDITION, .key = 0x0c }, MDL_SENSE_KEY },
    { { .initiators = 1, .outcome = MDL_AFTER_CHECK_CONDITION, .key = 255 }, MDL_SENSE_KEY },
    { { .key = 16, .has_code = 2 }, MDL_NO_INITIATOR },
    { { .count = 1, .healed_by_writes = 2 }, MDL_NO_INITIATOR },
    { { .times = 1 }, MDL_NO_INITIATOR },
    { { .initiators = BIT_63, .outcome = 11 }, MDL_UNKNOWN_FAULT },
    { { .initiators = 0x100, .outcome = MDL_ARRIVAL_CHECK_CONDITION, .key = 16 }, MDL_SENSE_KEY },
    { { .initiators = ALL, .has_code = 2 }, MDL_FAULT_FLAG },
    { { .initiators = ALL, .healed_by_writes = 1 }, MDL_FAULT_FLAG },
    { { .initiators = 1, .has_code = 2 }, MDL_FAULT_FLAG },
    { { .initiators = 1, .has_code = 255, .code = 0x12 }, MDL_FAULT_FLAG },
    { { .initiators = 1, .count = 1, .healed_by_writes = 2 }, MDL_FAULT_FLAG },
    { { .initiators = 1, .healed_by_writes = 255 }, MDL_FAULT_FLAG },
    { { .initiators = 1, .lba = 1, .healed_by_writes = 1 }, MDL_FAULT_FLAG },
};

/* A base disk does not have an initiator of each of these. Any other disk returns the error. */
static const struct {
    mdl_fault fault;
    mdl_error error;
} above_7[] = {
    { { .initiators = 0x100, .healed_by_writes = 2 }, MDL_FAULT_FLAG },
    { { .initiators = 0x100000001, .count = 1 }, MDL_OK },
    { { .initiators = BIT_63 | 0x100, .has_code = 2 }, MDL_FAULT_FLAG },
    { { .initiators = BIT_63 | 1, .healed_by_writes = 1 }, MDL_FAULT_FLAG },
    { { .initiators = ALL - 1, .has_code = 1 }, MDL_OK },
    { { .initiators = ALL >> 1 }, MDL_OK },
};

/* What the record asks for is looked at before the disk, and its free numbers last. Without a disk the fault
 * may name each of 64 initiators. */
static void refuse(void)
{
    mdl_happening it = { .kind = MDL_ARM };
    size_t at;
    int number;

    for (at = 0; at < sizeof refused / sizeof *refused; at++) {
        it.fault = refused[at].fault;
        WANT(mdl_happen(&disk, &it) == refused[at].error);
        WANT(mdl_happen(&no_disk, &it) == refused[at].error);
    }
    for (at = 0; at < sizeof above_7 / sizeof *above_7; at++) {
        it.fault = above_7[at].fault;
        WANT(mdl_happen(&disk, &it) == (last < 63 ? MDL_NO_INITIATOR : above_7[at].error));
        WANT(mdl_happen(&no_disk, &it) == (above_7[at].error ? above_7[at].error : MDL_NO_DISK));
    }
    WANT(happens(MDL_DISARM_ALL) == MDL_OK);
    it.number = 8;
    for (it.kind = MDL_ARM; it.kind <= MDL_DISARM_ALL; it.kind++) {
        const mdl_fault busy = { .initiators = ALL, .key = 16, .lba = UINT64_MAX };

        it.fault = busy;
        it.number = it.kind == MDL_DISARM ? 7 : 8;
        WANT(mdl_happen(NULL, &it) == MDL_NULL_POINTER);
        WANT(mdl_happen(&no_disk, &it) == MDL_NO_DISK && !no_disk.target);
    }
    for (number = 8; number < 256; number++)
        WANT(disarm((uint8_t)number) == MDL_FAULT_NUMBER);
    for (number = 0; number < 8; number++)
        WANT(test_ready((uint32_t)number) == MDL_GOOD);
}

int main(void)
{
    uint32_t profile;

    for (profile = MDL_PROFILE_BASE; profile <= MDL_PROFILE_EXTENDED_512E; profile++) {
        make_quiet(profile);
        stop_on_arrival();
        stop_at_medium();
        stop_afterwards();
        stop_short();
        list_them();
        name_some();
        meet_the_last();
        meet_all();
        count_down();
        fill_the_numbers();
        refuse();
        meet_some();
    }
    mdl_free(&disk);
    return failures != 0;
}
