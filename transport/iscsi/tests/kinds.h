/* The kinds of commands that a session of tests/mixed sends, and what each answer may be. */
#ifndef KINDS_H
#define KINDS_H

#include "models.h"
#include "reservations.h"
#include "session.h"

enum { EVENTS = 1 << 13 };

enum kind_number { WRITES, READS, UNMAPS, WRITES_SAME, COUNTS, RESERVES, SELECTS, TESTS, ASKS, KINDS };

/* A value of D_SENSE, the bit of the Control mode page, and when something has set it. No end: never. */
struct change {
    uint64_t begin, end;
    int value;
};

/* What a session has done. */
struct record {
    struct block blocks[OWN_BLOCKS];
    struct counter counters[COUNTERS];
    struct change selected, perhaps_selected, reset;
    uint64_t writes;                       /* the number of the last one */
    unsigned long commands, good[KINDS];   /* of COUNTS only those that increment */
    unsigned long missing, cuts, resets;   /* commands without a reply, sessions, resets */
    unsigned long event_count;
    struct event events[EVENTS];
};

/* A command that is under way. */
struct slot {
    struct command *command; /* null: there is none */
    enum kind_number kind;
    uint64_t begin;
    uint32_t first, count;   /* of the session's blocks; or the number of a counter */
    int value;               /* the value of D_SENSE; or 1 if it increments a counter */
    struct reading readings[MOST_BLOCKS];
    struct event event;
    uint8_t data_out[MOST_BLOCKS * MDL_BLOCK_LENGTH];
};

/* The address of a session's first block, and of the first counter. */
uint32_t address_of(unsigned session);

extern const char *const kind_names[KINDS];

/* Says which session this process is, and how long it lets pass between two reservation commands at most. */
void begin_kinds(unsigned session, struct record *record, int is_extended, uint64_t gap);

/* A random number below `bound`. */
uint32_t choose(uint32_t bound);

/* Chooses a command that may begin now. Returns 0 if it finds none soon. */
int begin_command(struct slot *slot, struct request *request);

/* Notes how a command has ended. Without an answer, null, it is over, and may have been executed or not. If
 * the answer is wrong, this process ends. */
void end_command(struct slot *slot, const struct answer *answer);

/* Ends this process, because of its session. */
void fail(const char *what);

#endif
