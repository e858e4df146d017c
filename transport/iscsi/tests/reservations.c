/* See reservations.h. */
#include "reservations.h"

#include <inttypes.h>
#include <string.h>
#include <time.h>

enum { PERSISTENT_RESERVE_IN = 0x5E, PERSISTENT_RESERVE_OUT = 0x5F, KEYS_LENGTH = 8 + 8 * MOST_KEYS };

uint64_t now(void)
{
    struct timespec time;

    clock_gettime(CLOCK_MONOTONIC, &time);
    return (uint64_t)time.tv_sec * 1000000000 + (uint64_t)time.tv_nsec;
}

struct request request_of_event(const struct event *event, uint8_t *list)
{
    if (event->action == READ_KEYS)
        return (struct request){ .cdb = { PERSISTENT_RESERVE_IN, [8] = KEYS_LENGTH }, .cdb_length = 10,
                                 .direction = DATA_IN, .length = KEYS_LENGTH };
    memset(list, 0, RESERVATION_LIST);
    list[7] = event->key;
    list[15] = event->action_key;
    return (struct request){ .cdb = { PERSISTENT_RESERVE_OUT, event->action, event->type,
                                      [8] = RESERVATION_LIST },
                             .cdb_length = 10, .direction = DATA_OUT, .length = RESERVATION_LIST,
                             .data_out = list };
}

void note_answer(struct event *event, const struct answer *answer)
{
    size_t at;

    for (at = 8; at + 8 <= answer->data_in_length && event->key_count < MOST_KEYS; at += 8)
        event->keys[event->key_count++] = answer->data_in[at + 7];
    if (answer->data_in_length >= 4)
        event->generation = (uint32_t)answer->data_in[2] << 8 | answer->data_in[3];
    event->status = (uint8_t)answer->status;
    event->end = now();
}

void write_event(FILE *out, unsigned initiator, const struct event *event)
{
    int key;

    fprintf(out, "%" PRIu64 " %" PRIu64 " %u %u %u %u %u %u %u", event->begin, event->end, initiator,
            event->action, event->key, event->action_key, event->type, event->status, event->generation);
    for (key = 0; key < event->key_count; key++)
        fprintf(out, " %u", event->keys[key]);
    putc('\n', out);
}

int clear_reservations(struct session *session)
{
    static struct answer answer;
    const struct event of_register = { .action = 6, .action_key = 1 }, of_clear = { .action = 3, .key = 1 };
    uint8_t list[RESERVATION_LIST];
    struct request request = request_of_event(&of_register, list);

    session_execute(session, &request, &answer);
    if (answer.status != MDL_GOOD)
        return 0;
    request = request_of_event(&of_clear, list);
    session_execute(session, &request, &answer);
    return answer.status == MDL_GOOD;
}
