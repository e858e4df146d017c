/* Disks of each profile, and what a transport asks about its initiators' ports: each named error, and
 * that the call has then changed nothing. */
#include <stdio.h>
#include <string.h>

#include "mehdalung.h"

static int failures;
#define WANT(condition) \
    do { \
        if (!(condition)) { \
            failures++; \
            fprintf(stderr, "line %d: not so: %s\n", __LINE__, #condition); \
        } \
    } while (0)

static mdl_disk disk = MDL_NONE, no_disk = MDL_NONE;
static uint8_t data_in[MDL_BUFFER_LENGTH];
static mdl_reply reply;

static int status_of(uint32_t initiator, const uint8_t *cdb, size_t length, const uint8_t *bytes,
                     size_t byte_count)
{
    WANT(mdl_execute(&disk, initiator, cdb, length, bytes, byte_count, data_in, sizeof data_in,
                     &reply) == MDL_OK);
    return reply.status;
}

static int is_ready(uint32_t initiator)
{
    static const uint8_t ready[6];

    return status_of(initiator, ready, sizeof ready, NULL, 0) == MDL_GOOD;
}

/* PERSISTENT RESERVE OUT, REGISTER AND IGNORE EXISTING KEY: the initiator registers with this key, or
 * is no longer registered with key 0. */
static void put_key(uint32_t initiator, uint8_t key)
{
    static const uint8_t cdb[10] = { 0x5F, 6, [8] = 24 };
    const uint8_t list[24] = { [15] = key };

    WANT(status_of(initiator, cdb, sizeof cdb, list, sizeof list) == MDL_GOOD);
}

static uint64_t registered(void)
{
    uint64_t mask = 0x123456789ABCDEF0;

    WANT(mdl_registered(&disk, &mask) == MDL_OK);
    return mask;
}

static uint32_t last; /* the last initiator of the disk */

static uint64_t bit(uint32_t initiator)
{
    return (uint64_t)1 << initiator;
}

static void refuse_profiles(void)
{
    mdl_identity own = MDL_STANDARD_IDENTITY;
    void *target;

    WANT(mdl_make_with_profile(NULL, MDL_PROFILE_BASE, 64, 4, NULL) == MDL_NULL_POINTER);
    own.vendor[0] = 0x1F;
    WANT(mdl_make_with_profile(&disk, 4, 0, 4, &own) == MDL_UNKNOWN_PROFILE && !disk.target);
    WANT(mdl_make_with_profile(&disk, 256, 0, 4, NULL) == MDL_UNKNOWN_PROFILE && !disk.target);
    WANT(mdl_make_with_profile(&disk, UINT32_MAX, 64, 4, NULL) == MDL_UNKNOWN_PROFILE);
    WANT(mdl_make_with_profile(&disk, MDL_PROFILE_EXTENDED, 0, 4, &own) == MDL_IDENTITY_TEXT);
    WANT(mdl_make_with_profile(&disk, MDL_PROFILE_EXTENDED, 0, 4, NULL) == MDL_BLOCKS);
    WANT(mdl_make_with_profile(&disk, MDL_PROFILE_EXTENDED_CUT, 0, 4, &own) == MDL_IDENTITY_TEXT);
    WANT(mdl_make_with_profile(&disk, MDL_PROFILE_EXTENDED_CUT, 0, 4, NULL) == MDL_BLOCKS);
    WANT(mdl_make_with_profile(&disk, MDL_PROFILE_EXTENDED_512E, 0, 4, &own) == MDL_IDENTITY_TEXT);
    WANT(mdl_make_with_profile(&disk, MDL_PROFILE_EXTENDED_512E, 0, 4, NULL) == MDL_BLOCKS);
    WANT(mdl_make_with_profile(&disk, MDL_PROFILE_BASE, 64, 0, NULL) == MDL_POOL && !disk.target);
    WANT(mdl_make_with_profile(&disk, MDL_PROFILE_EXTENDED, 64, 4, NULL) == MDL_OK);
    target = disk.target;
    WANT(mdl_make_with_profile(&disk, MDL_PROFILE_BASE, 0, 4, NULL) == MDL_DISK_EXISTS);
    WANT(mdl_make_with_profile(&disk, 4, 64, 4, NULL) == MDL_UNKNOWN_PROFILE);
    WANT(target && disk.target == target);
    mdl_free(&disk);
}

/* A disk of each profile has the identity that it was made with. */
static void show_identities(void)
{
    static const uint8_t inquiry[6] = { 0x12, 0, 0, 0, 36 };
    mdl_identity own = MDL_STANDARD_IDENTITY;
    uint32_t profile;

    own.vendor[7] = 'A';
    for (profile = MDL_PROFILE_BASE; profile <= MDL_PROFILE_EXTENDED_512E; profile++) {
        WANT(mdl_make_with_profile(&disk, profile, 64, 4, &own) == MDL_OK);
        WANT(status_of(0, inquiry, 6, NULL, 0) == MDL_GOOD && !memcmp(data_in + 8, own.vendor, 8));
        mdl_free(&disk);
        WANT(mdl_make_with_profile(&disk, profile, 64, 4, NULL) == MDL_OK);
        WANT(status_of(0, inquiry, 6, NULL, 0) == MDL_GOOD && !memcmp(data_in + 8, "SGMODEL ", 8));
        mdl_free(&disk);
    }
}

/* READ CAPACITY(16) of a disk of 64 blocks, and page B0h, with physical blocks of 512 and of 4,096 bytes. */
static void show_physical_blocks(void)
{
    static const uint8_t read_capacity[16] = { 0x9E, 0x10, [13] = 32 };
    static const uint8_t page_b0[6] = { 0x12, 1, 0xB0, 0, 255 };
    static const struct { mdl_profile profile; uint8_t exponent, granularity; } disks[] = {
        { MDL_PROFILE_EXTENDED, 0, 1 },
        { MDL_PROFILE_EXTENDED_CUT, 0, 1 },
        { MDL_PROFILE_EXTENDED_512E, 3, 8 },
    };
    uint8_t capacity[32] = { [7] = 63, [10] = 2, [14] = 0xC0 };
    uint8_t limits[64] = { 0, 0xB0, 0, 60, 1, 255, [10] = 8, [20] = 255, 255, 255, 255, [27] = 64,
                           [42] = 255, 255, [46] = 8 };
    size_t at;

    for (at = 0; at < sizeof disks / sizeof disks[0]; at++) {
        capacity[13] = disks[at].exponent;
        limits[7] = limits[31] = disks[at].granularity;
        WANT(mdl_make_with_profile(&disk, disks[at].profile, 64, 4, NULL) == MDL_OK);
        WANT(status_of(0, page_b0, sizeof page_b0, NULL, 0) == MDL_GOOD);
        WANT(reply.data_in_length == sizeof limits && !memcmp(data_in, limits, sizeof limits));
        WANT(!is_ready(0) && is_ready(0));
        WANT(status_of(0, read_capacity, sizeof read_capacity, NULL, 0) == MDL_GOOD);
        WANT(reply.data_in_length == sizeof capacity && !memcmp(data_in, capacity, sizeof capacity));
        mdl_free(&disk);
    }
}

/* A seed makes the names of a disk: the bytes of page 83h from the serial number on. */
static void show_names_of_seeds(void)
{
    static const struct { uint64_t seed; char serial[9]; uint8_t number[8]; } names[] = {
        { 0, "00000000", { 0 } },
        { 1, "00000001", { 0, 0, 0, 0, 0, 0, 0, 1 } },
        { 0x80000000, "80000000", { 0, 0, 0, 0, 0x80 } },
        { UINT64_C(0x1DEADBEEF), "deadbeef", { 0, 0, 0, 1, 0xDE, 0xAD, 0xBE, 0xEF } },
        { (UINT64_C(1) << 60) - 1, "ffffffff", { 0x0F, 255, 255, 255, 255, 255, 255, 255 } },
    };
    /* NAA 6h and a company_id that is administered locally. The number of the seed follows. */
    static const uint8_t company[12] = { 0x01, 0x03, 0, 16, 0x60, 0x20 };
    static const mdl_identity standard = MDL_STANDARD_IDENTITY;
    static const uint8_t page_83[6] = { 0x12, 1, 0x83, 0, 255 };
    mdl_identity own = standard;
    size_t at;

    WANT(mdl_identity_of_seed(2, NULL) == MDL_NULL_POINTER);
    WANT(mdl_identity_of_seed(UINT64_C(1) << 60, &own) == MDL_IDENTITY_LOCAL);
    WANT(mdl_identity_of_seed(UINT64_MAX, &own) == MDL_IDENTITY_LOCAL);
    WANT(!memcmp(&own, &standard, sizeof own));
    own.vendor[0] = own.product[0] = own.revision[0] = 0;
    WANT(mdl_identity_of_seed(1, &own) == MDL_OK && !memcmp(&own, &standard, sizeof own));
    for (at = 0; at < sizeof names / sizeof names[0]; at++) {
        WANT(mdl_identity_of_seed(names[at].seed, &own) == MDL_OK);
        WANT(mdl_make_with_profile(&disk, MDL_PROFILE_EXTENDED, 64, 4, &own) == MDL_OK);
        WANT(status_of(0, page_83, 6, NULL, 0) == MDL_GOOD);
        WANT(!memcmp(data_in + 8, "SGMODEL THIN DISK       ", 24));
        WANT(!memcmp(data_in + 32, names[at].serial, 8));
        WANT(!memcmp(data_in + 40, company, 12) && !memcmp(data_in + 52, names[at].number, 8));
        mdl_free(&disk);
    }
}

/* A new disk of a profile, and how many initiators it has. */
static void make(uint32_t profile)
{
    uint32_t count = 0;

    WANT(mdl_make_with_profile(&disk, profile, 64, 4, NULL) == MDL_OK);
    WANT(mdl_initiators(&disk, &count) == MDL_OK);
    WANT(count == (profile == MDL_PROFILE_BASE ? MDL_INITIATORS : MDL_MOST_INITIATORS));
    last = profile == MDL_PROFILE_BASE ? 7 : 63;
}

/* The disk has no such initiator, and nothing changes. */
static int is_missing(uint32_t initiator)
{
    static const uint8_t ready[6];
    mdl_reply before;

    memcpy(&before, &reply, sizeof reply);
    return mdl_execute(&disk, initiator, ready, sizeof ready, NULL, 0, NULL, 0, &reply)
            == MDL_NO_INITIATOR
        && mdl_execute_unflushed(&disk, initiator, ready, sizeof ready, NULL, 0, NULL, 0, &reply)
            == MDL_NO_INITIATOR
        && memcmp(&reply, &before, sizeof reply) == 0
        && mdl_forget(&disk, initiator) == MDL_NO_INITIATOR;
}

static void refuse_ports(void)
{
    static const uint8_t ready[6];
    uint64_t mask = 5;
    uint32_t count = 5;

    WANT(mdl_initiators(NULL, &count) == MDL_NULL_POINTER && count == 5);
    WANT(mdl_initiators(&disk, NULL) == MDL_NULL_POINTER);
    WANT(mdl_initiators(&no_disk, &count) == MDL_NO_DISK && count == 5);
    WANT(mdl_registered(NULL, &mask) == MDL_NULL_POINTER && mask == 5);
    WANT(mdl_registered(&disk, NULL) == MDL_NULL_POINTER);
    WANT(mdl_registered(&no_disk, &mask) == MDL_NO_DISK && mask == 5);
    WANT(mdl_forget(NULL, 0) == MDL_NULL_POINTER);
    WANT(mdl_forget(&no_disk, 7) == MDL_NO_DISK && mdl_forget(&no_disk, 64) == MDL_NO_DISK);
    WANT(mdl_execute(&no_disk, 7, ready, 6, NULL, 0, NULL, 0, &reply) == MDL_NO_DISK);
    WANT(mdl_execute(&no_disk, 64, ready, 6, NULL, 0, NULL, 0, &reply) == MDL_NO_DISK);
    WANT(last == 63 || (is_missing(8) && is_missing(63)));
    WANT(is_missing(64) && is_missing(255) && is_missing(256) && is_missing(256 + 5));
    WANT(is_missing(UINT32_MAX));
}

static void ask(void)
{
    uint32_t initiator;

    WANT(registered() == 0);
    /* The question reports no unit attention, such as POWER ON here, and clears none. */
    for (initiator = 0; initiator <= last; initiator++)
        WANT(!is_ready(initiator) && is_ready(initiator));
    put_key(1, 0x11);
    put_key(6, 0x66);
    WANT(registered() == 0x42);
    put_key(last, 0x77);
    put_key(0, 0x10);
    WANT(registered() == (0x43 | bit(last)));
    put_key(6, 0);
    WANT(registered() == (0x03 | bit(last)));
}

/* Two conditions are pending for initiator 0, and one for each other. */
static void forget(void)
{
    static const uint8_t clear[10] = { 0x5F, 3, [8] = 24 };
    static const uint8_t select[6] = { 0x15, 0x10, 0, 0, 16 };
    static const uint8_t key[24] = { [7] = 0x77 }, page[16] = { [4] = 0x0A, 0x0A, 0, 0, 8 };

    WANT(status_of(last, select, sizeof select, page, sizeof page) == MDL_GOOD);
    WANT(mdl_forget(&disk, 5) == MDL_OK && is_ready(5));
    WANT(mdl_forget(&disk, last - 1) == MDL_OK && is_ready(last - 1) && !is_ready(4));
    WANT(registered() == (0x03 | bit(last)));
    WANT(status_of(last, clear, sizeof clear, key, sizeof key) == MDL_GOOD && registered() == 0);
    WANT(mdl_forget(&disk, 0) == MDL_OK && is_ready(0));
    WANT(!is_ready(1) && reply.sense[12] == 0x2A && reply.sense[13] == 0x01);
    WANT(!is_ready(1) && reply.sense[13] == 0x03);
    WANT(is_ready(1) && !is_ready(2) && is_ready(2));
    WANT(mdl_forget(&disk, 2) == MDL_OK && is_ready(2));
    WANT(mdl_power_cycle(&disk) == MDL_OK && mdl_forget(&disk, 3) == MDL_OK);
    WANT(is_ready(3) && !is_ready(4) && is_ready(4));
    WANT(mdl_forget(&disk, last) == MDL_OK && is_ready(last) && !is_ready(last - 1));
}

/* REGISTER with SPEC_I_PT: initiator 0 registers all others of an extended disk by their TransportIDs
 * (SPC-4, 6.16.3 and 7.6.4). There is room for a registration of each. */
static void register_all(void)
{
    enum { IDS = 63, ID_LENGTH = 24, LENGTH = IDS * ID_LENGTH };
    static uint8_t list[28 + LENGTH] = { [15] = 0xC1, [20] = 8, [26] = LENGTH >> 8, LENGTH & 255 };
    static const uint8_t cdb[10] = { 0x5F, [7] = sizeof list >> 8, sizeof list & 255 };
    static const uint8_t keys[10] = { 0x5E, 0, [7] = 16 }, full_status[10] = { 0x5E, 3, [7] = 16 };
    uint8_t id[ID_LENGTH] = { 6, [4] = 0x30, [10] = 1 };
    size_t at;

    for (at = 0; at < IDS; at++) {
        id[11] = (uint8_t)(at + 1);
        memcpy(list + 28 + at * ID_LENGTH, id, sizeof id);
    }
    WANT(mdl_forget(&disk, 0) == MDL_OK && registered() == 0);
    WANT(status_of(0, cdb, sizeof cdb, list, sizeof list) == MDL_GOOD && registered() == UINT64_MAX);
    WANT(status_of(0, keys, sizeof keys, NULL, 0) == MDL_GOOD && reply.data_in_length == 520);
    WANT(data_in[6] == 2 && data_in[7] == 0 && data_in[519] == 0xC1);
    WANT(status_of(0, full_status, sizeof full_status, NULL, 0) == MDL_GOOD);
    WANT(reply.data_in_length == 3080 && data_in[6] == 12 && data_in[7] == 0);
    for (at = 0; at <= IDS; at++) {
        id[11] = (uint8_t)at;
        WANT(!memcmp(data_in + 8 + 48 * at + 24, id, sizeof id));
    }
    put_key(0, 0);
    WANT(registered() == UINT64_MAX - 1);
}

int main(void)
{
    uint32_t profile;

    refuse_profiles();
    show_identities();
    show_physical_blocks();
    show_names_of_seeds();
    for (profile = MDL_PROFILE_BASE; profile <= MDL_PROFILE_EXTENDED_512E; profile++) {
        make(profile);
        refuse_ports();
        ask();
        forget();
        if (profile != MDL_PROFILE_BASE)
            register_all();
        mdl_free(&disk);
    }
    return failures != 0;
}
