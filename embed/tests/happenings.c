/* What happens to a disk of each profile between two commands: the state before and after each kind,
 * as commands show it. Also each named error, after which nothing has changed. */
#include <stdio.h>
#include <string.h>

#include "mehdalung.h"

static int failures;
#define WANT(condition) \
    do { \
        if (!(condition)) { \
            failures++; \
            fprintf(stderr, "line %d: not so: %s\n", __LINE__, #condition); \
        } \
    } while (0)

enum { BLOCKS = 64, POOL = 8 };

/* The 16 conditions that the disk knows, by their codes in SPC-4's list of sense codes. */
enum {
    MEDIUM_MAY_HAVE_CHANGED = 0x2800, POWER_ON = 0x2900, SCSI_BUS_RESET = 0x2902,
    BUS_DEVICE_RESET = 0x2903, DEVICE_INTERNAL_RESET = 0x2904, NEXUS_LOSS = 0x2907,
    MODE_PARAMETERS_CHANGED = 0x2A01, RESERVATIONS_PREEMPTED = 0x2A03,
    RESERVATIONS_RELEASED = 0x2A04, REGISTRATIONS_PREEMPTED = 0x2A05,
    ACCESS_STATE_CHANGED = 0x2A06, CAPACITY_DATA_CHANGED = 0x2A09, SOFT_THRESHOLD_REACHED = 0x3807,
    MICROCODE_CHANGED = 0x3F01, INQUIRY_DATA_CHANGED = 0x3F03, REPORTED_LUNS_CHANGED = 0x3F0E
};
static const unsigned conditions[] = {
    MEDIUM_MAY_HAVE_CHANGED, POWER_ON, SCSI_BUS_RESET, BUS_DEVICE_RESET, DEVICE_INTERNAL_RESET,
    NEXUS_LOSS, MODE_PARAMETERS_CHANGED, RESERVATIONS_PREEMPTED, RESERVATIONS_RELEASED,
    REGISTRATIONS_PREEMPTED, ACCESS_STATE_CHANGED, CAPACITY_DATA_CHANGED, SOFT_THRESHOLD_REACHED,
    MICROCODE_CHANGED, INQUIRY_DATA_CHANGED, REPORTED_LUNS_CHANGED
};
enum { CONDITIONS = sizeof conditions / sizeof *conditions };

static mdl_disk disk = MDL_NONE, no_disk = MDL_NONE;
static uint32_t made; /* the profile of the disk */
static uint32_t last; /* its last initiator: 7 or 63 */
static uint64_t all;  /* the mask of its initiators */
static uint64_t high; /* some of them above 7, if it has any */
static uint8_t data_in[MDL_BUFFER_LENGTH];
static mdl_reply reply;

#define BIT_63 ((uint64_t)1 << 63)

static uint64_t bit(uint32_t initiator)
{
    return (uint64_t)1 << initiator;
}

static int status_of(uint32_t initiator, const uint8_t *cdb, size_t length, const uint8_t *bytes,
                     size_t byte_count)
{
    WANT(mdl_execute(&disk, initiator, cdb, length, bytes, byte_count, data_in, sizeof data_in,
                     &reply) == MDL_OK);
    return reply.status;
}

static int is_ready(uint32_t initiator)
{
    static const uint8_t ready[6];

    return status_of(initiator, ready, sizeof ready, NULL, 0) == MDL_GOOD;
}

/* TEST UNIT READY of an initiator reports this unit attention condition. */
static int reports(uint32_t initiator, unsigned code)
{
    mdl_sense fields;

    return !is_ready(initiator)
        && mdl_read_sense(reply.sense, reply.sense_length, &fields) == MDL_OK && fields.key == 6
        && (unsigned)(fields.asc << 8 | fields.ascq) == code;
}

/* Each initiator of a mask reports a condition. */
static int report(uint64_t mask, unsigned code)
{
    uint32_t initiator;
    int is_so = 1;

    for (initiator = 0; initiator <= last; initiator++)
        is_so &= !(mask & bit(initiator)) || reports(initiator, code);
    return is_so;
}

/* No initiator has a condition pending. */
static int is_quiet(void)
{
    uint32_t initiator;
    int is_so = 1;

    for (initiator = 0; initiator <= last; initiator++)
        is_so &= is_ready(initiator);
    return is_so;
}

/* The initiators of a mask report a condition, and no other condition was pending for any. */
static int only_report(uint64_t mask, unsigned code)
{
    return report(mask, code) && is_quiet();
}

/* REQUEST SENSE of an initiator returns this condition. 0 is that none is pending. */
static int senses(uint32_t initiator, unsigned code)
{
    static const uint8_t request_sense[6] = { 0x03, 0, 0, 0, 18 };

    return status_of(initiator, request_sense, sizeof request_sense, NULL, 0) == MDL_GOOD
        && reply.data_in_length == 18 && data_in[2] == (code ? 6 : 0)
        && (unsigned)(data_in[12] << 8 | data_in[13]) == code;
}

static void make_quiet(uint32_t profile)
{
    mdl_free(&disk);
    made = profile;
    last = profile == MDL_PROFILE_BASE ? 7 : 63;
    all = profile == MDL_PROFILE_BASE ? 0xFF : UINT64_MAX;
    high = (BIT_63 | bit(32) | bit(8)) & all;
    WANT(mdl_make_with_profile(&disk, profile, BLOCKS, POOL, NULL) == MDL_OK);
    WANT(only_report(all, POWER_ON));
}

/* The fields that a kind does not read have numbers that a base disk would refuse. */
static mdl_error happens(uint32_t kind)
{
    const mdl_happening it = { .kind = kind, .initiator = 64, .initiators = BIT_63 };

    return mdl_happen(&disk, &it);
}

static mdl_error loses_nexus(uint32_t initiator)
{
    const mdl_happening it = { .kind = MDL_NEXUS_LOSS, .initiator = initiator,
                               .initiators = BIT_63 };

    return mdl_happen(&disk, &it);
}

static mdl_error establishes(unsigned code, uint64_t initiators)
{
    const uint8_t asc = (uint8_t)(code >> 8), ascq = (uint8_t)code;
    const mdl_happening it = { .kind = MDL_ATTENTION, .initiator = 64, .initiators = initiators,
                               .asc = asc, .ascq = ascq };

    return mdl_happen(&disk, &it);
}

static mdl_error grows(uint64_t blocks)
{
    const mdl_happening it = { .kind = MDL_GROW, .initiator = 64, .initiators = BIT_63,
                               .blocks = blocks };

    return mdl_happen(&disk, &it);
}

/* PERSISTENT RESERVE OUT with keys of one byte. */
static int reserve_out(uint32_t initiator, uint8_t action, uint8_t type, uint8_t key, uint8_t own)
{
    const uint8_t cdb[10] = { 0x5F, action, type, [8] = 24 };
    const uint8_t list[24] = { [7] = key, [15] = own };

    return status_of(initiator, cdb, sizeof cdb, list, sizeof list);
}

/* MODE SELECT of the Control page of initiator 0: with SWP the disk refuses writes. */
static int select_swp(int swp, int save)
{
    const uint8_t cdb[6] = { 0x15, (uint8_t)(0x10 | save), 0, 0, 16 };
    const uint8_t page[16] = { [4] = 0x0A, 0x0A, 0, 0, (uint8_t)(swp ? 8 : 0) };

    return status_of(0, cdb, sizeof cdb, page, sizeof page);
}

/* A WRITE is refused because SWP is 1: WRITE PROTECTED, or of a base disk LOGICAL UNIT SOFTWARE WRITE
 * PROTECTED. */
static int is_write_protected(void)
{
    static const uint8_t write[10] = { 0x2A, [5] = 40, [8] = 1 }, block[MDL_BLOCK_LENGTH];
    int status = status_of(0, write, sizeof write, block, sizeof block);

    return status == MDL_CHECK_CONDITION && reply.sense[2] == 7 && reply.sense[12] == 0x27
        && reply.sense[13] == (made == MDL_PROFILE_BASE ? 2 : 0);
}

/* What initiator 0 sees of blocks, registrations, reservation and sizes. */
struct seen {
    uint8_t blocks[BLOCKS * MDL_BLOCK_LENGTH], status[256], keys[256], reservation[24], capacity[8];
};

static void look(struct seen *seen)
{
    static const uint8_t read[10] = { 0x28, [8] = BLOCKS };
    static const uint8_t lba_status[16] = { 0x9E, 0x12, [12] = 1 };
    static const uint8_t keys[10] = { 0x5E, 0, [7] = 1 }, reservation[10] = { 0x5E, 1, [8] = 24 };
    static const uint8_t capacity[10] = { 0x25 };

    memset(seen, 0, sizeof *seen);
    WANT(status_of(0, read, sizeof read, NULL, 0) == MDL_GOOD);
    memcpy(seen->blocks, data_in, sizeof seen->blocks);
    WANT(status_of(0, lba_status, sizeof lba_status, NULL, 0) == MDL_GOOD);
    memcpy(seen->status, data_in, reply.data_in_length);
    WANT(status_of(0, keys, sizeof keys, NULL, 0) == MDL_GOOD);
    memcpy(seen->keys, data_in, reply.data_in_length);
    WANT(status_of(0, reservation, sizeof reservation, NULL, 0) == MDL_GOOD);
    memcpy(seen->reservation, data_in, reply.data_in_length);
    WANT(status_of(0, capacity, sizeof capacity, NULL, 0) == MDL_GOOD);
    memcpy(seen->capacity, data_in, sizeof seen->capacity);
}

static int is_as_before(const struct seen *before)
{
    static struct seen now;

    look(&now);
    return memcmp(&now, before, sizeof now) == 0;
}

static uint64_t registered(void)
{
    uint64_t mask = 0x123456789ABCDEF0;

    WANT(mdl_registered(&disk, &mask) == MDL_OK);
    return mask;
}

/* Initiators 0 and the last one are registered. */
static int are_registered(void)
{
    return registered() == (1 | bit(last));
}

/* A disk with mapped and anchored blocks, two registrants, and a reservation of one of them. */
static void make_used(uint32_t profile, struct seen *seen)
{
    static const uint8_t write[10] = { 0x2A, [5] = 3, [8] = 2 }, anchor[10] = { 0x42, 1, [8] = 24 };
    static const uint8_t extent[24] = { 0, 22, 0, 16, [15] = 50, [19] = 2 };
    uint8_t bytes[2 * MDL_BLOCK_LENGTH];

    make_quiet(profile);
    memset(bytes, 0xA5, sizeof bytes);
    WANT(status_of(0, write, sizeof write, bytes, sizeof bytes) == MDL_GOOD);
    WANT(status_of(0, anchor, sizeof anchor, extent, sizeof extent) == MDL_GOOD);
    WANT(reserve_out(0, 0, 0, 0, 0x10) == MDL_GOOD && reserve_out(last, 0, 0, 0, 0x66) == MDL_GOOD);
    WANT(reserve_out(last, 1, 5, 0x66, 0) == MDL_GOOD && are_registered() && is_quiet());
    look(seen);
    WANT(seen->blocks[3 * MDL_BLOCK_LENGTH] == 0xA5 && seen->keys[7] == 16);
    WANT(seen->reservation[7] == 16 && seen->capacity[3] == BLOCKS - 1);
}

/* Both resets do the same, except for the condition (SAM-5, 6.3.2 and 6.3.3). */
static void reset(uint32_t profile, uint32_t kind, unsigned code)
{
    static struct seen before;

    make_used(profile, &before);
    WANT(happens(kind) == MDL_OK && only_report(all, code));
    WANT(is_as_before(&before) && are_registered());
    WANT(happens(kind) == MDL_OK && happens(kind) == MDL_OK);
    WANT(senses(last - 2, code) && senses(last - 2, 0));
    WANT(only_report(all & ~bit(last - 2), code));

    /* The saved mode pages become the current ones (SPC-4, 7.5). */
    WANT(select_swp(1, 0) == MDL_GOOD && is_write_protected());
    WANT(only_report(all - 1, MODE_PARAMETERS_CHANGED));
    WANT(happens(kind) == MDL_OK && only_report(all, code) && !is_write_protected());
    WANT(select_swp(1, 1) == MDL_GOOD && is_write_protected());
    WANT(only_report(all - 1, MODE_PARAMETERS_CHANGED));
    WANT(happens(kind) == MDL_OK && only_report(all, code) && is_write_protected());

    /* What was pending comes after it. */
    WANT(select_swp(0, 1) == MDL_GOOD && happens(kind) == MDL_OK && report(all, code));
    WANT(only_report(all - 1, MODE_PARAMETERS_CHANGED));
}

/* As mdl_power_cycle. Registrations were made without APTPL, so they are gone. */
static void cycle_power(uint32_t profile)
{
    static struct seen before, after;

    make_used(profile, &before);
    WANT(establishes(INQUIRY_DATA_CHANGED, all) == MDL_OK && happens(MDL_POWER_CYCLE) == MDL_OK);
    WANT(only_report(all, POWER_ON) && registered() == 0);
    look(&after);
    WANT(memcmp(after.blocks, before.blocks, sizeof after.blocks) == 0);
    WANT(memcmp(after.status, before.status, sizeof after.status) == 0);
    WANT(memcmp(after.capacity, before.capacity, sizeof after.capacity) == 0);
    WANT(after.keys[7] == 0 && after.reservation[7] == 0);
    WANT(select_swp(1, 0) == MDL_GOOD && is_write_protected());
    WANT(happens(MDL_POWER_CYCLE) == MDL_OK && only_report(all, POWER_ON) && !is_write_protected());
}

/* Only the initiator that loses its nexus learns of it (SAM-5, 6.3.4). An initiator that the disk does not
 * have loses none. */
static void lose_nexus(uint32_t profile)
{
    static struct seen before;
    uint32_t initiator;

    make_used(profile, &before);
    for (initiator = 0; initiator <= last; initiator++) {
        WANT(loses_nexus(initiator) == MDL_OK && loses_nexus(initiator) == MDL_OK);
        WANT(only_report(bit(initiator), NEXUS_LOSS));
    }
    for (; initiator < 256; initiator++)
        WANT(loses_nexus(initiator) == MDL_NO_INITIATOR);
    WANT(is_quiet() && is_as_before(&before) && are_registered());
    WANT(establishes(INQUIRY_DATA_CHANGED, all) == MDL_OK && loses_nexus(last) == MDL_OK);
    WANT(senses(last, NEXUS_LOSS) && only_report(all, INQUIRY_DATA_CHANGED));
    WANT(select_swp(1, 0) == MDL_GOOD && loses_nexus(0) == MDL_OK && report(1, NEXUS_LOSS));
    WANT(is_write_protected() && only_report(all - 1, MODE_PARAMETERS_CHANGED));
}

/* Each condition for the initiators of a mask, and for no other one. UINT64_MAX names all that the disk has.
 * Any other mask is refused if it has a bit of an initiator that the disk does not have. */
static void establish_for(uint64_t mask)
{
    const int is_own = mask == UINT64_MAX || !(mask & ~all);
    size_t at;

    for (at = 0; at < CONDITIONS; at++) {
        WANT(establishes(conditions[at], mask) == (is_own ? MDL_OK : MDL_NO_INITIATOR));
        WANT(is_own ? only_report(mask, conditions[at]) : is_quiet());
    }
}

/* Each set of the first eight initiators, each single initiator, and each set of all but one. */
static void establish_each(uint32_t profile)
{
    static struct seen before;
    uint64_t mask;
    uint32_t initiator;

    make_used(profile, &before);
    for (mask = 0; mask <= 0xFF; mask++)
        establish_for(mask);
    for (initiator = 0; initiator < 64; initiator++) {
        establish_for(bit(initiator));
        establish_for(~bit(initiator));
    }
    establish_for(0x142);
    establish_for(BIT_63 | 0x100);
    establish_for(UINT64_MAX - 0xFF);
    establish_for(UINT64_MAX);
    WANT(is_as_before(&before) && are_registered());
}

/* Of two 29h conditions that of higher precedence is left, whichever comes first (SAM-5, 5.14). */
static void precede(void)
{
    static const unsigned resets[] = { POWER_ON, DEVICE_INTERNAL_RESET, SCSI_BUS_RESET,
                                       BUS_DEVICE_RESET, NEXUS_LOSS };
    size_t first, second, higher;

    for (first = 0; first < sizeof resets / sizeof *resets; first++)
        for (second = 0; second < sizeof resets / sizeof *resets; second++) {
            higher = first < second ? first : second;
            WANT(establishes(resets[first], 0x18 | high) == MDL_OK);
            WANT(establishes(resets[second], 0x18 | high) == MDL_OK);
            WANT(only_report(0x18 | high, resets[higher]));
        }
}

/* All conditions at once: a 29h condition first, then the others in the order of their coming. */
static void establish_all(void)
{
    size_t at, times;

    for (times = 0; times < 2; times++)
        for (at = 0; at < CONDITIONS; at++)
            WANT(establishes(conditions[at], 0x12 | high) == MDL_OK);
    WANT(report(0x12 | high, POWER_ON));
    for (at = 0; at < CONDITIONS; at++)
        WANT(conditions[at] >> 8 == 0x29 || report(0x12 | high, conditions[at]));
    WANT(is_quiet());
}

/* A base disk knows 16 of all 65,536 codes. The code is looked at before the mask. */
static void name_conditions(void)
{
    unsigned code;
    size_t at;

    make_quiet(MDL_PROFILE_BASE);
    for (code = 0; code <= 0xFFFF; code++) {
        int is_known = 0;

        for (at = 0; at < CONDITIONS; at++)
            is_known |= conditions[at] == code;
        WANT(establishes(code, 0) == (is_known ? MDL_OK : MDL_UNKNOWN_CONDITION));
        WANT(establishes(code, 0x100) == (is_known ? MDL_NO_INITIATOR : MDL_UNKNOWN_CONDITION));
    }
    WANT(is_quiet());
}

/* A command of initiator 0 on blocks up to FFh. */
static int access_blocks(uint8_t opcode, uint8_t lba, uint8_t count)
{
    static const uint8_t zeros[64 * MDL_BLOCK_LENGTH];
    const uint8_t cdb[10] = { opcode, [5] = lba, [8] = count };

    return status_of(0, cdb, sizeof cdb, zeros, sizeof zeros);
}

/* The command was refused, because this block is the first that is not there. */
static int is_past(uint8_t lba)
{
    mdl_sense fields;

    return mdl_read_sense(reply.sense, reply.sense_length, &fields) == MDL_OK && fields.key == 5
        && fields.asc == 0x21 && fields.ascq == 0 && fields.information == lba;
}

/* The last address by READ CAPACITY(16). */
static uint64_t last_block(void)
{
    static const uint8_t capacity[16] = { 0x9E, 0x10, [13] = 32 };
    uint64_t last = 0;
    int at;

    WANT(status_of(0, capacity, sizeof capacity, NULL, 0) == MDL_GOOD);
    for (at = 0; at < 8; at++)
        last = last << 8 | data_in[at];
    return last;
}

/* New blocks are not mapped, and read as zeros. The pool is as large as before. */
static void use_new_blocks(void)
{
    static const uint8_t lba_status[16] = { 0x9E, 0x12, [9] = 52, [13] = 24 };
    static const uint8_t zeros[64 * MDL_BLOCK_LENGTH];

    WANT(access_blocks(0x28, 64, 64) == MDL_GOOD && memcmp(data_in, zeros, sizeof zeros) == 0);
    WANT(status_of(0, lba_status, sizeof lba_status, NULL, 0) == MDL_GOOD);
    WANT(data_in[15] == 52 && data_in[19] == 128 - 52 && data_in[20] == 1);
    WANT(access_blocks(0x28, 127, 2) == MDL_CHECK_CONDITION && is_past(128));
    WANT(access_blocks(0x2A, 63, 2) == MDL_GOOD && access_blocks(0x2A, 127, 1) == MDL_GOOD);
    WANT(access_blocks(0x2A, 70, 2) == MDL_CHECK_CONDITION && reply.sense[12] == 0x27);
    WANT(access_blocks(0x2A, 70, 1) == MDL_GOOD && access_blocks(0x2A, 50, 2) == MDL_GOOD);
}

static void grow(uint32_t profile)
{
    static struct seen before;
    const uint64_t most = (uint64_t)1 << 40;

    make_used(profile, &before);
    WANT(access_blocks(0x28, 63, 2) == MDL_CHECK_CONDITION && is_past(64));
    WANT(grows(BLOCKS) == MDL_OK && grows(BLOCKS - 1) == MDL_OK && grows(1) == MDL_OK);
    WANT(is_quiet() && is_as_before(&before) && last_block() == 63);
    WANT(grows(128) == MDL_OK && only_report(all, CAPACITY_DATA_CHANGED));
    WANT(last_block() == 127 && are_registered());
    WANT(access_blocks(0x28, 0, 64) == MDL_GOOD);
    WANT(memcmp(data_in, before.blocks, sizeof before.blocks) == 0);
    use_new_blocks();
    WANT(grows(BLOCKS) == MDL_OK && is_quiet() && last_block() == 127);

    /* It grows twice before anyone learns of it, and keeps its size through other happenings. */
    WANT(grows(129) == MDL_OK && grows(most) == MDL_OK && grows(most) == MDL_OK);
    WANT(only_report(all, CAPACITY_DATA_CHANGED) && last_block() == most - 1);
    WANT(happens(MDL_TARGET_RESET) == MDL_OK && happens(MDL_POWER_CYCLE) == MDL_OK);
    WANT(only_report(all, POWER_ON) && last_block() == most - 1);
}

/* A record without a fault. */
#define RECORD(kind, initiator, initiators, blocks, asc, ascq) \
    { kind, initiator, initiators, blocks, asc, ascq, 0, { 0 } }

static const struct {
    mdl_happening it;
    mdl_error error;
} refused[] = {
    { RECORD(9, 0, 0, 1, 0x29, 0), MDL_UNKNOWN_HAPPENING },
    { RECORD(256, 0, 0, 1, 0x29, 0), MDL_UNKNOWN_HAPPENING },
    { RECORD(65536, 64, 256, 0, 0, 0), MDL_UNKNOWN_HAPPENING },
    { RECORD(UINT32_MAX, 0, 0, 1, 0x29, 0), MDL_UNKNOWN_HAPPENING },
    { RECORD(MDL_NEXUS_LOSS, 64, 0, 1, 0x29, 0), MDL_NO_INITIATOR },
    { RECORD(MDL_NEXUS_LOSS, 256, 0, 1, 0x29, 0), MDL_NO_INITIATOR },
    { RECORD(MDL_NEXUS_LOSS, 256 + 63, 0, 1, 0x29, 0), MDL_NO_INITIATOR },
    { RECORD(MDL_NEXUS_LOSS, UINT32_MAX, 0, 1, 0x29, 0), MDL_NO_INITIATOR },
    { RECORD(MDL_ATTENTION, 0, 0xFF, 1, 0x29, 1), MDL_UNKNOWN_CONDITION },
    { RECORD(MDL_ATTENTION, 0, UINT64_MAX, 1, 0x00, 0x29), MDL_UNKNOWN_CONDITION },
    { RECORD(MDL_ATTENTION, 0, BIT_63, 1, 0x29, 0xFF), MDL_UNKNOWN_CONDITION },
    { RECORD(MDL_GROW, 0, 0, 0, 0x29, 0), MDL_BLOCKS },
    { RECORD(MDL_GROW, 0, 0, ((uint64_t)1 << 40) + 1, 0x29, 0), MDL_BLOCKS },
    { RECORD(MDL_GROW, 0, 0, UINT64_MAX, 0x29, 0), MDL_BLOCKS },
};

/* Masks that a base disk refuses. */
static const uint64_t above_7[] = {
    0x100, 0x101, 0x1FF, 0x100000001, BIT_63, BIT_63 | 0xFF, UINT64_MAX - 1, UINT64_MAX - 0xFF,
    UINT64_MAX >> 1
};

static void refuse_masks(void)
{
    mdl_happening it = RECORD(MDL_ATTENTION, 0, 0, 1, 0x2A, 1);
    size_t at;

    for (at = 0; at < sizeof above_7 / sizeof *above_7; at++) {
        it.initiators = above_7[at];
        WANT(mdl_happen(&disk, &it) == (last < 63 ? MDL_NO_INITIATOR : MDL_OK));
        WANT(only_report(last < 63 ? 0 : above_7[at], MODE_PARAMETERS_CHANGED));
        WANT(mdl_happen(&no_disk, &it) == MDL_NO_DISK);
    }
}

/* What the record asks for is looked at before the disk. Without a disk it may name each of 64 initiators. */
static void refuse(uint32_t profile)
{
    static struct seen before;
    mdl_happening it = RECORD(MDL_POWER_CYCLE, 63, UINT64_MAX, 128, 0x2A, 1);
    size_t at;
    void *target;

    make_used(profile, &before);
    target = disk.target;
    WANT(mdl_happen(NULL, &it) == MDL_NULL_POINTER && mdl_happen(NULL, NULL) == MDL_NULL_POINTER);
    WANT(mdl_happen(&disk, NULL) == MDL_NULL_POINTER);
    WANT(mdl_happen(&no_disk, NULL) == MDL_NULL_POINTER);
    for (at = 0; at < sizeof refused / sizeof *refused; at++) {
        WANT(mdl_happen(&disk, &refused[at].it) == refused[at].error);
        WANT(mdl_happen(&no_disk, &refused[at].it) == refused[at].error);
    }
    for (it.kind = MDL_POWER_CYCLE; it.kind <= MDL_GROW; it.kind++)
        WANT(mdl_happen(&no_disk, &it) == MDL_NO_DISK && !no_disk.target);
    it.kind = MDL_NEXUS_LOSS;
    for (it.initiator = 0; it.initiator < 128; it.initiator++)
        WANT(mdl_happen(&no_disk, &it) == (it.initiator < 64 ? MDL_NO_DISK : MDL_NO_INITIATOR));
    refuse_masks();
    WANT(disk.target == target && is_quiet());
    WANT(is_as_before(&before) && are_registered());
}

int main(void)
{
    uint32_t profile;

    for (profile = MDL_PROFILE_BASE; profile <= MDL_PROFILE_EXTENDED_512E; profile++) {
        cycle_power(profile);
        reset(profile, MDL_LOGICAL_UNIT_RESET, BUS_DEVICE_RESET);
        reset(profile, MDL_TARGET_RESET, SCSI_BUS_RESET);
        lose_nexus(profile);
        establish_each(profile);
        precede();
        establish_all();
        grow(profile);
        refuse(profile);
    }
    name_conditions();
    mdl_free(&disk);
    return failures != 0;
}
