/* See kinds.h. */
#include "kinds.h"

#include <stdio.h>
#include <stdlib.h>
#include <string.h>

#include "tests/below.h"

enum { TRIES = 8, WRITE_SAME_MARK = 0xFF00, KEYS_OF_A_SESSION = 2 };

/* Sense keys that matter here, and the bit that is D_SENSE in its byte. */
enum { UNIT_ATTENTION = 0x6, ILLEGAL_REQUEST = 0x5, MISCOMPARE = 0xE, D_SENSE = 0x04 };

/* Which sense data a kind of command may get. All get unit attentions and ABORTED COMMAND. */
enum {
    BY_FAULT = 1, BY_MEDIUM = 2, BY_SPACE = 4, BY_DIFFERENCE = 8, BY_PROFILE = 16, BY_RESERVATION = 32
};

static const struct { unsigned group; uint8_t key, asc, ascq; } senses[] = {
    { BY_FAULT, 0xB, 0x47, 0x03 }, { BY_MEDIUM, 0x3, 0x11, 0x00 }, { BY_SPACE, 0x7, 0x27, 0x07 },
    { BY_DIFFERENCE, MISCOMPARE, 0x1D, 0x00 }, { BY_PROFILE, ILLEGAL_REQUEST, 0x20, 0x00 },
    { BY_RESERVATION, ILLEGAL_REQUEST, 0x26, 0x04 }, { BY_RESERVATION, ILLEGAL_REQUEST, 0x55, 0x04 }
};

struct kind {
    unsigned weight, senses;
    int (*begin)(struct slot *slot, struct request *request);
    void (*end)(struct slot *slot, enum outcome outcome, const struct answer *answer);
};

const char *const kind_names[KINDS] = {
    "WRITE", "READ", "UNMAP", "WRITE SAME", "COMPARE AND WRITE", "reservation commands", "MODE SELECT",
    "TEST UNIT READY", "others"
};

static unsigned self = SESSIONS; /* this process is no session */
static struct record *own;
static int has_compare;
static uint64_t state, gap_of_events, next_event;
static uint8_t own_key, own_type;
static int is_reserving, is_selecting;

void fail(const char *what)
{
    if (self < SESSIONS)
        fprintf(stderr, "session %u: ", self);
    fprintf(stderr, "%s\n", what);
    exit(1);
}

static void fail_command(const struct slot *slot, const char *what, const struct answer *answer)
{
    mdl_sense sense = { 0 };

    fprintf(stderr, "session %u: %s: %s", self, kind_names[slot->kind], what);
    if (answer && answer->status == MDL_CHECK_CONDITION) {
        mdl_read_sense(answer->sense, answer->sense_length, &sense);
        fprintf(stderr, ": sense %x/%02x/%02x", sense.key, sense.asc, sense.ascq);
    } else if (answer) {
        fprintf(stderr, ": status %02x", (unsigned)answer->status);
    }
    fprintf(stderr, "; first %u, count %u, value %d\n", slot->first, slot->count, slot->value);
    exit(1);
}

uint32_t address_of(unsigned session)
{
    return session * OWN_BLOCKS;
}

void begin_kinds(unsigned session, struct record *record, int is_extended, uint64_t gap)
{
    self = session;
    own = record;
    has_compare = is_extended;
    gap_of_events = gap;
    state = session + 1;
}

uint32_t choose(uint32_t bound)
{
    return below(&state, bound);
}

static struct block *blocks_of(const struct slot *slot)
{
    return own->blocks + slot->first;
}

/* A command of 10 bytes to some of the session's blocks. */
static struct request request_for(const struct slot *slot, uint8_t opcode)
{
    uint32_t address = address_of(self) + slot->first;

    return (struct request){ .cdb = { opcode, [4] = (uint8_t)(address >> 8), (uint8_t)address,
                                      [8] = (uint8_t)slot->count },
                             .cdb_length = 10 };
}

static void add_data_out(struct request *request, const struct slot *slot, size_t length)
{
    request->direction = DATA_OUT;
    request->length = length;
    request->data_out = slot->data_out;
}

static void choose_blocks(struct slot *slot)
{
    slot->count = 1 + choose(MOST_BLOCKS);
    slot->first = choose(OWN_BLOCKS - slot->count + 1);
}

static int begin_writing(struct slot *slot, struct request *request)
{
    uint32_t at;
    uint64_t word;

    choose_blocks(slot);
    if (!may_write(blocks_of(slot), slot->count))
        return 0;
    own->writes++;
    for (at = 0; at < slot->count; at++) {
        word = word_of(own->writes, (uint16_t)(address_of(self) + slot->first + at));
        fill_block(slot->data_out + at * MDL_BLOCK_LENGTH, word);
        begin_write(blocks_of(slot) + at, word);
    }
    *request = request_for(slot, 0x2A);
    add_data_out(request, slot, slot->count * MDL_BLOCK_LENGTH);
    return 1;
}

/* Begins a write that leaves the same in each block. */
static int begin_equal(struct slot *slot, uint64_t word)
{
    uint32_t at;

    choose_blocks(slot);
    if (!may_write(blocks_of(slot), slot->count))
        return 0;
    for (at = 0; at < slot->count; at++)
        begin_write(blocks_of(slot) + at, word);
    return 1;
}

/* With ANCHOR now and then. */
static int begin_unmapping(struct slot *slot, struct request *request)
{
    uint32_t address;

    if (!begin_equal(slot, 0))
        return 0;
    address = address_of(self) + slot->first;
    memset(slot->data_out, 0, 24);
    slot->data_out[1] = 22;
    slot->data_out[3] = 16;
    slot->data_out[14] = (uint8_t)(address >> 8);
    slot->data_out[15] = (uint8_t)address;
    slot->data_out[19] = (uint8_t)slot->count;
    *request = (struct request){ .cdb = { 0x42, choose(4) == 0, [8] = 24 }, .cdb_length = 10 };
    add_data_out(request, slot, 24);
    return 1;
}

/* With UNMAP and zeros, or without. */
static int begin_writing_same(struct slot *slot, struct request *request)
{
    int unmaps = choose(2) != 0;
    uint64_t word = unmaps ? 0 : word_of(++own->writes, (uint16_t)(WRITE_SAME_MARK | self));

    if (!begin_equal(slot, word))
        return 0;
    fill_block(slot->data_out, word);
    *request = request_for(slot, 0x41);
    request->cdb[1] = unmaps ? 0x08 : 0;
    add_data_out(request, slot, MDL_BLOCK_LENGTH);
    return 1;
}

static void end_writing(struct slot *slot, enum outcome outcome, const struct answer *answer)
{
    uint32_t at;

    for (at = 0; at < slot->count; at++)
        if (!end_write(blocks_of(slot) + at, outcome))
            fail_command(slot, "it has failed, and its data was read", answer);
}

/* Chooses blocks to read: those of which nobody knows what they have, if there are any, or others. */
static void choose_to_read(struct slot *slot)
{
    uint32_t at = 0;

    choose_blocks(slot);
    while (at < OWN_BLOCKS && !own->blocks[at].is_unknown)
        at++;
    if (at < OWN_BLOCKS && choose(2)) {
        slot->first = at;
        slot->count = 1;
    }
}

static int begin_reading(struct slot *slot, struct request *request)
{
    uint32_t at;

    choose_to_read(slot);
    if (!may_read(blocks_of(slot), slot->count))
        return 0;
    for (at = 0; at < slot->count; at++)
        begin_read(blocks_of(slot) + at, &slot->readings[at]);
    *request = request_for(slot, 0x28);
    request->direction = DATA_IN;
    request->length = slot->count * MDL_BLOCK_LENGTH;
    return 1;
}

static void end_reading(struct slot *slot, enum outcome outcome, const struct answer *answer)
{
    const uint8_t *bytes = outcome == DONE ? answer->data_in : NULL;
    uint32_t at;

    if (bytes && answer->data_in_length != slot->count * MDL_BLOCK_LENGTH)
        fail_command(slot, "it has too little data-in", answer);
    for (at = 0; at < slot->count; at++)
        if (!end_read(blocks_of(slot) + at, &slot->readings[at],
                      bytes ? bytes + at * MDL_BLOCK_LENGTH : NULL))
            fail_command(slot, "a block is not what was written", answer);
}

/* Reads a counter, or increments what was read: COMPARE AND WRITE of a block (SBC-3, 5.2). */
static int begin_counting(struct slot *slot, struct request *request)
{
    uint32_t number = choose(COUNTERS), address = address_of(SESSIONS) + number;
    struct counter *counter = &own->counters[number];

    if (counter->is_under_way)
        return 0;
    counter->is_under_way = 1;
    slot->first = number;
    slot->value = counter->is_known;
    if (slot->value) {
        put_increment(counter, self, slot->data_out);
        *request = (struct request){ .cdb = { 0x89, [8] = (uint8_t)(address >> 8), (uint8_t)address,
                                              [13] = 1 }, .cdb_length = 16 };
        add_data_out(request, slot, 2 * MDL_BLOCK_LENGTH);
    } else {
        *request = (struct request){ .cdb = { 0x28, [4] = (uint8_t)(address >> 8), (uint8_t)address,
                                              [8] = 1 }, .cdb_length = 10, .direction = DATA_IN,
                                     .length = MDL_BLOCK_LENGTH };
    }
    return 1;
}

static uint8_t key_of_sense(const struct answer *answer)
{
    mdl_sense sense = { 0 };

    if (answer && answer->status == MDL_CHECK_CONDITION)
        mdl_read_sense(answer->sense, answer->sense_length, &sense);
    return sense.key;
}

static void end_counting(struct slot *slot, enum outcome outcome, const struct answer *answer)
{
    struct counter *counter = &own->counters[slot->first];
    const char *fault = NULL;

    counter->is_under_way = 0;
    if (slot->value)
        end_increment(counter, outcome, key_of_sense(answer) == MISCOMPARE, slot->data_out);
    else if (outcome == DONE && answer->data_in_length == MDL_BLOCK_LENGTH)
        fault = read_counter(counter, self, answer->data_in);
    else if (outcome == DONE)
        fault = "too little data-in";
    if (slot->value && outcome == DONE && !has_compare)
        fault = "the profile has no such command";
    if (fault)
        fail_command(slot, fault, answer);
}

static uint8_t key_of_session(unsigned session)
{
    return (uint8_t)(0x10 * (session + 1) + choose(KEYS_OF_A_SESSION));
}

/* Most reservations end soon, so that most writes are executed. PREEMPT of key 0 is for tests/rows, because
 * profiles differ there. */
static void choose_event(struct event *event)
{
    static const uint8_t actions[] = { 0, 6, 6, 6, 1, 1, 2, 3, 3, 4, 4, READ_KEYS, READ_KEYS };
    static const uint8_t types[] = { 1, 3, 5, 6 };

    *event = (struct event){ .action = actions[choose(sizeof actions)] };
    event->type = types[choose(sizeof types)];
    if (own_type && choose(4)) {
        event->action = 2;
        event->type = own_type;
    }
    if (event->action == READ_KEYS)
        return;
    event->key = choose(8) ? own_key : 0;
    if (event->action == 4)
        event->action_key = key_of_session(choose(SESSIONS));
    else if (choose(4))
        event->action_key = key_of_session(self);
}

/* One at a time. The last place is for the keys at the end. */
static int begin_reserving(struct slot *slot, struct request *request)
{
    if (is_reserving || own->event_count + 1 >= EVENTS || now() < next_event)
        return 0;
    is_reserving = 1;
    choose_event(&slot->event);
    slot->event.begin = now();
    next_event = slot->event.begin + gap_of_events / 64 * choose(64);
    *request = request_of_event(&slot->event, slot->data_out);
    return 1;
}

/* What this session registers and holds now, as far as it knows. */
static void note_reservation(const struct event *event)
{
    if (event->action == 0 || event->action == 6)
        own_key = event->action_key;
    if (event->action == 1)
        own_type = event->type;
    else if (event->action == 2 || event->action == 3 || own_key == 0)
        own_type = 0;
}

/* A fault or a unit attention in the place of the reply is no event. */
static void end_reserving(struct slot *slot, enum outcome outcome, const struct answer *answer)
{
    struct event *event = &slot->event;

    is_reserving = 0;
    if (outcome == NOT_DONE && answer->status != MDL_RESERVATION_CONFLICT
        && key_of_sense(answer) != ILLEGAL_REQUEST)
        return;
    if (outcome == UNKNOWN && event->action == READ_KEYS)
        return;
    if (outcome == UNKNOWN) {
        event->status = STATUS_UNKNOWN;
        event->end = now();
    } else {
        note_answer(event, answer);
    }
    if (outcome == DONE)
        note_reservation(event);
    else
        own_type = 0;
    own->events[own->event_count++] = *event;
}

/* MODE SELECT(6) of the Control mode page. After one of which nobody knows, the next has the same value. */
static int begin_selecting(struct slot *slot, struct request *request)
{
    if (is_selecting)
        return 0;
    is_selecting = 1;
    slot->value = own->perhaps_selected.end ? own->perhaps_selected.value : (int)choose(2);
    memset(slot->data_out, 0, 16);
    slot->data_out[4] = slot->data_out[5] = 0x0A;
    slot->data_out[6] = slot->value ? D_SENSE : 0;
    *request = (struct request){ .cdb = { 0x15, 0x10, [4] = 16 }, .cdb_length = 6 };
    add_data_out(request, slot, 16);
    return 1;
}

static void end_selecting(struct slot *slot, enum outcome outcome, const struct answer *answer)
{
    const struct change change = { slot->begin, now(), slot->value };

    (void)answer;
    is_selecting = 0;
    if (outcome == DONE) {
        own->selected = change;
        own->perhaps_selected.end = 0;
    } else if (outcome == UNKNOWN) {
        own->perhaps_selected = change;
    }
}

static int begin_testing(struct slot *slot, struct request *request)
{
    (void)slot;
    *request = (struct request){ .cdb_length = 6 };
    return 1;
}

/* A command that changes nothing. */
static int begin_asking(struct slot *slot, struct request *request)
{
    static const uint8_t cdbs[][16] = {
        { 0x03, [4] = 18 }, { 0x12, [4] = 36 }, { 0x12, 1, 0xB0, [4] = 64 }, { 0x25 },
        { 0x1A, 0, 0x3F, [4] = 192 }, { 0x9E, 0x10, [13] = 32 }, { 0x9E, 0x12, [13] = 200 }
    };

    (void)slot;
    *request = request_of(cdbs[choose(sizeof cdbs / sizeof *cdbs)], MOST_CDB);
    request->direction = DATA_IN;
    request->length = 255;
    return 1;
}

static void end_nothing(struct slot *slot, enum outcome outcome, const struct answer *answer)
{
    (void)slot;
    (void)outcome;
    (void)answer;
}

static const struct kind kinds[KINDS] = {
    [WRITES] = { 40, BY_MEDIUM | BY_SPACE, begin_writing, end_writing },
    [READS] = { 40, BY_MEDIUM, begin_reading, end_reading },
    [UNMAPS] = { 10, BY_MEDIUM | BY_SPACE, begin_unmapping, end_writing },
    [WRITES_SAME] = { 8, BY_MEDIUM | BY_SPACE, begin_writing_same, end_writing },
    [COUNTS] = { 24, BY_MEDIUM | BY_SPACE | BY_DIFFERENCE | BY_PROFILE, begin_counting, end_counting },
    [RESERVES] = { 4, BY_RESERVATION, begin_reserving, end_reserving },
    [SELECTS] = { 1, 0, begin_selecting, end_selecting },
    [TESTS] = { 6, 0, begin_testing, end_nothing },
    [ASKS] = { 6, 0, begin_asking, end_nothing },
};

static enum kind_number choose_kind(void)
{
    unsigned all = 0, at;
    uint32_t chosen;

    for (at = 0; at < KINDS; at++)
        all += kinds[at].weight;
    chosen = choose(all);
    for (at = 0; chosen >= kinds[at].weight; at++)
        chosen -= kinds[at].weight;
    return (enum kind_number)at;
}

int begin_command(struct slot *slot, struct request *request)
{
    int tries;

    for (tries = 0; tries < TRIES; tries++) {
        slot->kind = choose_kind();
        slot->begin = now();
        slot->first = slot->count = 0;
        slot->value = 0;
        if (kinds[slot->kind].begin(slot, request))
            return 1;
    }
    return 0;
}

/* Whether sense data may come with this kind of command. */
static int may_have(enum kind_number kind, const struct answer *answer)
{
    unsigned groups = kinds[kind].senses | BY_FAULT;
    mdl_sense sense;
    size_t at;

    if (mdl_read_sense(answer->sense, answer->sense_length, &sense))
        return 0;
    groups &= has_compare ? ~(unsigned)BY_PROFILE : ~(unsigned)BY_DIFFERENCE;
    for (at = 0; at < sizeof senses / sizeof *senses; at++)
        if (groups & senses[at].group && sense.key == senses[at].key && sense.asc == senses[at].asc
            && sense.ascq == senses[at].ascq)
            return 1;
    return sense.key == UNIT_ATTENTION;
}

static enum outcome outcome_of(const struct slot *slot, const struct answer *answer)
{
    if (!answer)
        return UNKNOWN;
    if (answer->status == MDL_GOOD)
        return DONE;
    if (answer->status == MDL_BUSY || answer->status == MDL_TASK_SET_FULL
        || answer->status == MDL_RESERVATION_CONFLICT)
        return NOT_DONE;
    if (answer->status != MDL_CHECK_CONDITION || !may_have(slot->kind, answer))
        fail_command(slot, "it can't end like this", answer);
    return NOT_DONE;
}

void end_command(struct slot *slot, const struct answer *answer)
{
    enum outcome outcome = outcome_of(slot, answer);

    own->commands++;
    own->good[slot->kind] += outcome == DONE && (slot->kind != COUNTS || slot->value);
    kinds[slot->kind].end(slot, outcome, answer);
}
