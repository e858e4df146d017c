/* Reservation commands, and the history of them that tests/order reads. */
#ifndef RESERVATIONS_H
#define RESERVATIONS_H

#include <stdio.h>

#include "session.h"

/* What an event is, if it is not a service action of PERSISTENT RESERVE OUT. */
enum { READ_KEYS = 16, POWER_CYCLE = 17 };

/* The status of an event that has no answer, and may have been executed or not. */
enum { STATUS_UNKNOWN = 0xFF };

enum { RESERVATION_LIST = 24, MOST_KEYS = 8 };

/* A reservation command. Its times are in nanoseconds, and `end` is 0 if it is not known. */
struct event {
    uint64_t begin, end;
    uint8_t action, key, action_key, type, status;
    uint32_t generation;
    uint8_t keys[MOST_KEYS], key_count;
};

/* The time now. */
uint64_t now(void);

/* The command of an event. Its list, of RESERVATION_LIST bytes, has to stay until the reply. */
struct request request_of_event(const struct event *event, uint8_t *list);

/* Notes in an event the answer that has come now. */
void note_answer(struct event *event, const struct answer *answer);

/* Writes a line of the history. */
void write_event(FILE *out, unsigned initiator, const struct event *event);

/* Registers, ignoring an existing key, and clears all. Returns 0 if a base disk has six others registered. */
int clear_reservations(struct session *session);

#endif
