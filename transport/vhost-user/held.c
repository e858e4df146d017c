/* Not proved. See held.h. */
#include "held.h"

#include <stdlib.h>

int hold(struct unit *unit, struct port *port, struct queue *queue, uint16_t head, uint64_t tag)
{
    struct held *it = queue->held < queue->ring.size ? malloc(sizeof *it) : NULL;

    if (!it)
        return 0;
    *it = (struct held){ unit->held, port, queue, head, tag, 0, 0 };
    unit->held = it;
    queue->held++;
    return 1;
}

static void release(struct held **link)
{
    struct held *it = *link;

    *link = it->next;
    it->queue->held--;
    free(it);
}

/* The guest may have changed the chain meanwhile, so it is read and checked again. */
static void answer(struct held *it)
{
    static struct chain chain;
    struct answer answer;

    if (read_chain(it->port->memory, &it->queue->ring, it->head, &chain) || !is_command(&chain)) {
        put_used(it->queue, it->head, 0);
        return;
    }
    end_without_status(&chain, it->response, &answer);
    copy_in(&chain, 0, &answer.response, sizeof answer.response);
    put_used(it->queue, it->head, answer.length);
}

void answer_ended(struct unit *unit, const struct port *port)
{
    struct held **link = &unit->held;

    while (*link)
        if ((*link)->has_ended && (*link)->port == port && (*link)->queue->is_running) {
            answer(*link);
            release(link);
        } else
            link = &(*link)->next;
}

static void end(struct held *it, uint8_t response)
{
    if (it->has_ended)
        return;
    it->has_ended = 1;
    it->response = response;
}

static void answer_all_ended(struct unit *unit)
{
    unsigned at;

    for (at = 0; at < unit->port_count; at++)
        answer_ended(unit, &unit->ports[at]);
}

void end_held(struct unit *unit, const struct port *port, const uint64_t *tag, uint8_t response)
{
    struct held *it;

    for (it = unit->held; it; it = it->next)
        if ((port == ANY_PORT || it->port == port) && (tag == ANY_TAG || it->tag == *tag))
            end(it, response);
    answer_all_ended(unit);
}

void end_held_of(struct unit *unit, uint64_t initiators, uint8_t response)
{
    struct held *it;

    for (it = unit->held; it; it = it->next)
        if (initiators >> it->port->initiator & 1)
            end(it, response);
    answer_all_ended(unit);
}

void end_held_in(struct unit *unit, const struct queue *queue, uint8_t response)
{
    struct held *it;

    for (it = unit->held; it; it = it->next)
        if (it->queue == queue)
            end(it, response);
    answer_all_ended(unit);
}

void forget_held(struct unit *unit, const struct port *port, const struct queue *queue)
{
    struct held **link = &unit->held;

    while (*link)
        if ((*link)->port == port && (!queue || (*link)->queue == queue))
            release(link);
        else
            link = &(*link)->next;
}
