/* What the processes of tests/mixed share. */
#ifndef MIXED_H
#define MIXED_H

#include "kinds.h"

enum { POWER_CYCLES = 1 << 13 };

#define MILLISECOND UINT64_C(1000000)
#define SECOND (1000 * MILLISECOND)

/* All of them have this memory. */
struct shared {
    volatile int is_calm;                    /* no fault is armed any more */
    volatile unsigned long armed[SESSIONS];  /* how many commands of each need get no reply */
    struct change reset;                     /* the last power cycle, or reset by TARGET */
    struct event power_cycles[POWER_CYCLES];
    unsigned long happened, power_cycle_count;
    struct record records[SESSIONS];
};

/* Logs in as a port, which has this number. Any two differ in name or ISID, and some in only one of them. */
struct session *log_in(const char *url, unsigned port);

/* Sends commands until it is calm, and ends this process. */
void run_session(const char *url, unsigned port, struct shared *shared, int is_extended, uint64_t length);

#endif
