/* Happenings that are read from words: the record of each verb and of each option, each error,
 * after which the record is as it was, and what the records let happen to a disk. */
#include <stdio.h>
#include <string.h>

#include "mehdalung.h"

static int failures;
#define WANT(condition) \
    do { \
        if (!(condition)) { \
            failures++; \
            fprintf(stderr, "line %d: not so: %s\n", __LINE__, #condition); \
        } \
    } while (0)

enum { MOST_WORDS = 64 };
#define ALL UINT64_MAX
#define BIT_63 ((uint64_t)1 << 63)

/* Words, and all that they ask for. */
static const struct {
    const char *words;
    mdl_happening asked;
} read[] = {
    { "power", { .kind = MDL_POWER_CYCLE } },
    { " \tpower\t ", { .kind = MDL_POWER_CYCLE } },
    { "reset", { .kind = MDL_LOGICAL_UNIT_RESET } },
    { "reset target", { .kind = MDL_TARGET_RESET } },
    { "nexus 0", { .kind = MDL_NEXUS_LOSS, .initiator = 0 } },
    { "nexus\t7", { .kind = MDL_NEXUS_LOSS, .initiator = 7 } },
    { "nexus 007", { .kind = MDL_NEXUS_LOSS, .initiator = 7 } },
    { "nexus 8", { .kind = MDL_NEXUS_LOSS, .initiator = 8 } },
    { "nexus 63", { .kind = MDL_NEXUS_LOSS, .initiator = 63 } },
    { "nexus 0x3f", { .kind = MDL_NEXUS_LOSS, .initiator = 63 } },
    { "nexus 3Fh", { .kind = MDL_NEXUS_LOSS, .initiator = 63 } },
    { "grow 1", { .kind = MDL_GROW, .blocks = 1 } },
    { "grow 8192", { .kind = MDL_GROW, .blocks = 8192 } },
    { "grow 0x10000000000", { .kind = MDL_GROW, .blocks = 1099511627776 } },
    { "attention 28h/00h", { .kind = MDL_ATTENTION, .asc = 0x28, .initiators = ALL } },
    { "attention 2Ah/09h 3",
      { .kind = MDL_ATTENTION, .asc = 0x2A, .ascq = 0x09, .initiators = 0x08 } },
    { "attention 3Fh/0Eh 7 0 5 7",
      { .kind = MDL_ATTENTION, .asc = 0x3F, .ascq = 0x0E, .initiators = 0xA1 } },
    { "attention 2Ah/09h 8", { .kind = MDL_ATTENTION, .asc = 0x2A, .ascq = 0x09, .initiators = 0x100 } },
    { "attention 2Ah/09h 0 8",
      { .kind = MDL_ATTENTION, .asc = 0x2A, .ascq = 0x09, .initiators = 0x101 } },
    { "attention 2Ah/09h 63 8 0x20",
      { .kind = MDL_ATTENTION, .asc = 0x2A, .ascq = 0x09, .initiators = BIT_63 | 0x100000100 } },
    { "heal", { .kind = MDL_DISARM_ALL } },
    { "heal 0", { .kind = MDL_DISARM, .number = 0 } },
    { "heal 7", { .kind = MDL_DISARM, .number = 7 } },
};

/* The words of faults. */
static const struct {
    const char *words;
    mdl_fault asked;
} faults[] = {
    { "fault arrival busy", { .initiators = ALL, .outcome = MDL_ARRIVAL_BUSY } },
    { "fault arrival full", { .initiators = ALL, .outcome = MDL_ARRIVAL_TASK_SET_FULL } },
    { "fault arrival conflict",
      { .initiators = ALL, .outcome = MDL_ARRIVAL_RESERVATION_CONFLICT } },
    { "fault arrival silent", { .initiators = ALL, .outcome = MDL_ARRIVAL_NO_REPLY } },
    { "fault arrival 4/44/01",
      { .initiators = ALL, .outcome = MDL_ARRIVAL_CHECK_CONDITION, .key = 4, .asc = 0x44,
        .ascq = 0x01 } },
    { "fault arrival deferred f/0c/FE",
      { .initiators = ALL, .outcome = MDL_ARRIVAL_DEFERRED_ERROR, .key = 15, .asc = 0x0C,
        .ascq = 0xFE } },
    { "fault medium 3/11/00",
      { .initiators = ALL, .outcome = MDL_MEDIUM_CHECK_CONDITION, .key = 3, .asc = 0x11 } },
    { "fault medium first 0", { .initiators = ALL, .outcome = MDL_MEDIUM_MOVES_ONLY } },
    { "fault medium first 4294967295",
      { .initiators = ALL, .outcome = MDL_MEDIUM_MOVES_ONLY, .blocks = UINT32_MAX } },
    { "fault after silent", { .initiators = ALL, .outcome = MDL_AFTER_NO_REPLY } },
    { "fault after 1/17/02",
      { .initiators = ALL, .outcome = MDL_AFTER_CHECK_CONDITION, .key = 1, .asc = 0x17,
        .ascq = 0x02 } },
    { "fault after first 0", { .initiators = ALL, .outcome = MDL_AFTER_SHORT_DATA_IN } },
    { "fault after first 4294967295",
      { .initiators = ALL, .outcome = MDL_AFTER_SHORT_DATA_IN, .blocks = UINT32_MAX } },
    { "fault arrival busy to 0", { .initiators = 0x01, .outcome = MDL_ARRIVAL_BUSY } },
    { "fault arrival busy to 7 to 2 to 7", { .initiators = 0x84, .outcome = MDL_ARRIVAL_BUSY } },
    { "fault arrival busy to 0 to 1 to 2 to 3 to 4 to 5 to 6 to 7", { .initiators = 0xFF } },
    { "fault arrival busy to 8", { .initiators = 0x100 } },
    { "fault arrival busy to 8 to 0", { .initiators = 0x101 } },
    { "fault arrival busy to 63 to 08 to 20h", { .initiators = BIT_63 | 0x100000100 } },
    { "fault arrival busy code 2Ah", { .initiators = ALL, .has_code = 1, .code = 0x2A } },
    { "fault arrival busy code 00h", { .initiators = ALL, .has_code = 1, .code = 0x00 } },
    { "fault arrival busy blocks 18446744073709551615 1",
      { .initiators = ALL, .lba = UINT64_MAX, .count = 1 } },
    { "fault arrival busy blocks 0 4294967295 healed",
      { .initiators = ALL, .count = UINT32_MAX, .healed_by_writes = 1 } },
    { "fault arrival busy skip 65535 times 1", { .initiators = ALL, .skip = 65535, .times = 1 } },
    { "fault arrival busy times 65535 skip 0", { .initiators = ALL, .times = 65535 } },
    { "fault medium 3/11/00 times 9 healed skip 8 blocks 10 2 code 28h to 5",
      { .initiators = 0x20, .outcome = MDL_MEDIUM_CHECK_CONDITION, .lba = 10, .count = 2,
        .healed_by_writes = 1, .has_code = 1, .code = 0x28, .skip = 8, .times = 9, .key = 3,
        .asc = 0x11 } },
};

/* Words that are refused: the first error that applies. */
static const struct {
    const char *words;
    mdl_error error;
} refused[] = {
    { "power\n", MDL_BAD_BYTE },           { "nothing \x7F", MDL_BAD_BYTE },
    { "nexus \xC2\xA0", MDL_BAD_BYTE },    { "", MDL_UNKNOWN_VERB },
    { " \t ", MDL_UNKNOWN_VERB },          { "Power", MDL_UNKNOWN_VERB },
    { "powers", MDL_UNKNOWN_VERB },        { "faults", MDL_UNKNOWN_VERB },
    { "raw 0 00", MDL_UNKNOWN_VERB },      { "# power", MDL_UNKNOWN_VERB },
    { "0 sg_inq", MDL_UNKNOWN_VERB },      { "power 0", MDL_USAGE },
    { "reset unit", MDL_USAGE },           { "reset target 0", MDL_USAGE },
    { "nexus", MDL_USAGE },                { "nexus 64", MDL_USAGE },
    { "nexus 0x40", MDL_USAGE },           { "nexus 0 1", MDL_USAGE },
    { "nexus -1", MDL_USAGE },             { "nexus 4294967296", MDL_USAGE },
    { "nexus 3F", MDL_USAGE },             { "nexus 18446744073709551616", MDL_USAGE },
    { "grow", MDL_USAGE },                 { "grow 0", MDL_USAGE },
    { "grow 1099511627777", MDL_USAGE },   { "grow -1", MDL_USAGE },
    { "attention", MDL_USAGE },            { "attention 3fh/0eh", MDL_USAGE },
    { "attention 29h/01h", MDL_USAGE },    { "attention 29h/00h 0 64", MDL_USAGE },
    { "heal 8", MDL_USAGE },               { "heal 0 1", MDL_USAGE },
    { "fault", MDL_USAGE },                { "fault arrival", MDL_USAGE },
    { "fault busy", MDL_USAGE },           { "fault medium busy", MDL_USAGE },
    { "fault after first", MDL_USAGE },    { "fault arrival deferred", MDL_USAGE },
    { "fault medium c/11/00", MDL_USAGE }, { "fault medium 3/11", MDL_USAGE },
    { "fault medium first", MDL_USAGE },   { "fault medium first 4294967296", MDL_USAGE },
    { "fault after first x", MDL_USAGE },  { "fault after first 4294967296", MDL_USAGE },
    { "fault arrival first 0", MDL_USAGE }, { "fault after deferred 4/44/01", MDL_USAGE },
    { "fault arrival busy to", MDL_USAGE }, { "fault arrival busy to 64", MDL_USAGE },
    { "fault arrival busy code 28", MDL_USAGE }, { "fault arrival busy healed", MDL_USAGE },
    { "fault arrival busy blocks 0 0", MDL_USAGE }, { "fault arrival busy blocks 0", MDL_USAGE },
    { "fault arrival busy times 0", MDL_USAGE }, { "fault arrival busy skip 65536", MDL_USAGE },
    { "fault arrival busy skip 1 skip 1", MDL_USAGE },
};

static int is_fault(const mdl_fault *a, const mdl_fault *b)
{
    return a->initiators == b->initiators && a->lba == b->lba && a->count == b->count
        && a->outcome == b->outcome && a->blocks == b->blocks && a->skip == b->skip
        && a->times == b->times && a->has_code == b->has_code && a->code == b->code
        && a->healed_by_writes == b->healed_by_writes && a->key == b->key && a->asc == b->asc
        && a->ascq == b->ascq;
}

/* The kind, and the fields that it reads. */
static int is_same(const mdl_happening *a, const mdl_happening *b)
{
    if (a->kind != b->kind)
        return 0;
    switch (a->kind) {
    case MDL_NEXUS_LOSS: return a->initiator == b->initiator;
    case MDL_ATTENTION:
        return a->initiators == b->initiators && a->asc == b->asc && a->ascq == b->ascq;
    case MDL_GROW: return a->blocks == b->blocks;
    case MDL_ARM: return is_fault(&a->fault, &b->fault);
    case MDL_DISARM: return a->number == b->number;
    default: return 1;
    }
}

static void read_record(const char *words, const mdl_happening *asked)
{
    mdl_happening it;

    memset(&it, 0xDD, sizeof it);
    WANT(mdl_read_happening(words, &it) == MDL_OK);
    WANT(is_same(&it, asked));
    if (!is_same(&it, asked))
        fprintf(stderr, "it is: %s\n", words);
}

static void read_records(void)
{
    mdl_happening arming = { .kind = MDL_ARM };
    size_t at;

    for (at = 0; at < sizeof read / sizeof *read; at++)
        read_record(read[at].words, &read[at].asked);
    for (at = 0; at < sizeof faults / sizeof *faults; at++) {
        arming.fault = faults[at].asked;
        read_record(faults[at].words, &arming);
    }
}

/* A verb, and as many words in all. */
static const char *many_words(const char *verb, size_t count)
{
    static char words[1024];

    strcpy(words, verb);
    while (--count)
        strcat(words, " 0");
    return words;
}

/* A unit attention for the initiators below `count`, each by its number. */
static const char *each_initiator(int count)
{
    static char words[1024];
    size_t length;
    int at;

    strcpy(words, "attention 28h/00h");
    for (at = 0; at < count; at++) {
        length = strlen(words);
        snprintf(words + length, sizeof words - length, " %d", at);
    }
    return words;
}

static int is_refused(const char *words, mdl_error error)
{
    mdl_happening it, before;

    memset(&it, 0xDD, sizeof it);
    memcpy(&before, &it, sizeof it);
    return mdl_read_happening(words, &it) == error && memcmp(&it, &before, sizeof it) == 0;
}

static void refuse(void)
{
    mdl_happening it;
    size_t at;

    for (at = 0; at < sizeof refused / sizeof *refused; at++) {
        WANT(is_refused(refused[at].words, refused[at].error));
        if (!is_refused(refused[at].words, refused[at].error))
            fprintf(stderr, "it is: %s\n", refused[at].words);
    }
    WANT(is_refused(many_words("power", MOST_WORDS), MDL_USAGE));
    WANT(is_refused(many_words("power", MOST_WORDS + 1), MDL_TOO_MANY_WORDS));
    WANT(is_refused(many_words("nothing", MOST_WORDS + 1), MDL_TOO_MANY_WORDS));
    WANT(is_refused(many_words("\x01", MOST_WORDS + 1), MDL_BAD_BYTE));
    WANT(mdl_read_happening(many_words("attention 28h/00h", MOST_WORDS - 1), &it) == MDL_OK);
    WANT(it.initiators == 1);
    WANT(mdl_read_happening(each_initiator(62), &it) == MDL_OK && it.initiators == ALL >> 2);
    WANT(is_refused(each_initiator(63), MDL_TOO_MANY_WORDS));
    WANT(is_refused(NULL, MDL_NULL_POINTER));
    WANT(mdl_read_happening("power", NULL) == MDL_NULL_POINTER);
    WANT(mdl_read_happening(NULL, NULL) == MDL_NULL_POINTER);
}

static mdl_error happen(mdl_disk *disk, const char *words)
{
    mdl_happening it;

    return mdl_read_happening(words, &it) == MDL_OK ? mdl_happen(disk, &it) : MDL_USAGE;
}

/* TEST UNIT READY reports a status, and a unit attention if it is CHECK CONDITION. */
static int reports(mdl_disk *disk, uint32_t initiator, uint8_t status, uint8_t asc, uint8_t ascq)
{
    static const uint8_t ready[6];
    static uint8_t none[1];
    mdl_reply reply;

    return mdl_execute(disk, initiator, ready, sizeof ready, NULL, 0, none, 0, &reply) == MDL_OK
        && reply.status == status
        && (status != MDL_CHECK_CONDITION || (reply.sense[12] == asc && reply.sense[13] == ascq));
}

/* What mdl_happen returns for a record. A base disk, whose last initiator is 7, refuses any above it. */
static mdl_error result_of(const mdl_happening *it, uint32_t last)
{
    const uint64_t mask = it->kind == MDL_ARM ? it->fault.initiators : it->initiators;
    const int is_above_7 = it->kind == MDL_NEXUS_LOSS ? it->initiator > 7 : mask != ALL && mask > 0xFF;

    return last < 63 && is_above_7 ? MDL_NO_INITIATOR : MDL_OK;
}

/* mdl_happen takes each record, for a disk of each profile. */
static void let_happen(uint32_t profile)
{
    mdl_disk disk = MDL_NONE, no_disk = MDL_NONE;
    mdl_happening arming = { .kind = MDL_ARM };
    uint32_t initiator, last = profile == MDL_PROFILE_BASE ? 7 : 63;
    size_t at;

    WANT(mdl_make_with_profile(&disk, profile, 64, 16, NULL) == MDL_OK);
    for (at = 0; at < sizeof read / sizeof *read; at++) {
        WANT(happen(&disk, read[at].words) == result_of(&read[at].asked, last));
        WANT(happen(&no_disk, read[at].words) == MDL_NO_DISK);
    }
    for (at = 0; at < sizeof faults / sizeof *faults; at++) {
        arming.fault = faults[at].asked;
        WANT(happen(&disk, "heal") == MDL_OK);
        WANT(happen(&disk, faults[at].words) == result_of(&arming, last));
        WANT((mdl_faults(&disk, NULL, 0) > 0) == (result_of(&arming, last) == MDL_OK));
        WANT(happen(&no_disk, faults[at].words) == MDL_NO_DISK);
    }
    WANT(happen(&disk, "heal") == MDL_OK && happen(&disk, "power") == MDL_OK);
    for (initiator = 0; initiator <= last; initiator++)
        WANT(reports(&disk, initiator, MDL_CHECK_CONDITION, 0x29, 0x00)
             && reports(&disk, initiator, MDL_GOOD, 0, 0));
    WANT(happen(&disk, "attention 28h/00h") == MDL_OK);
    for (initiator = 0; initiator <= last; initiator++)
        WANT(reports(&disk, initiator, MDL_CHECK_CONDITION, 0x28, 0x00)
             && reports(&disk, initiator, MDL_GOOD, 0, 0));
    WANT(happen(&disk, "attention 28h/00h 0 8") == (last < 63 ? MDL_NO_INITIATOR : MDL_OK));
    WANT(reports(&disk, 0, last < 63 ? MDL_GOOD : MDL_CHECK_CONDITION, 0x28, 0x00));
    WANT(happen(&disk, "nexus 5") == MDL_OK && reports(&disk, 5, MDL_CHECK_CONDITION, 0x29, 0x07));
    WANT(happen(&disk, "nexus 8") == (last < 63 ? MDL_NO_INITIATOR : MDL_OK));
    WANT(happen(&disk, "nexus 63") == (last < 63 ? MDL_NO_INITIATOR : MDL_OK));
    WANT(reports(&disk, last, last < 63 ? MDL_GOOD : MDL_CHECK_CONDITION, 0x29, 0x07));
    WANT(happen(&disk, "fault arrival busy times 1 to 5") == MDL_OK);
    WANT(reports(&disk, 4, MDL_GOOD, 0, 0) && reports(&disk, 5, MDL_BUSY, 0, 0));
    WANT(reports(&disk, 5, MDL_GOOD, 0, 0));
    WANT(happen(&disk, "fault arrival busy times 1") == MDL_OK);
    for (initiator = 0; initiator <= last; initiator++)
        WANT(mdl_faults(&disk, NULL, 0) > 0 && reports(&disk, initiator, MDL_BUSY, 0, 0));
    WANT(mdl_faults(&disk, NULL, 0) == 0);
    for (at = 0; at < MDL_MOST_FAULTS; at++)
        WANT(happen(&disk, "fault arrival silent to 1") == MDL_OK);
    WANT(happen(&disk, "fault arrival silent") == MDL_FAULTS);
    WANT(happen(&disk, "heal 3") == MDL_OK && happen(&disk, "fault arrival silent") == MDL_OK);
    mdl_free(&disk);
}

int main(void)
{
    read_records();
    refuse();
    let_happen(MDL_PROFILE_BASE);
    let_happen(MDL_PROFILE_EXTENDED);
    let_happen(MDL_PROFILE_EXTENDED_CUT);
    let_happen(MDL_PROFILE_EXTENDED_512E);
    return failures != 0;
}
