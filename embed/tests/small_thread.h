/* Threads with no more stack than a call may need by the header. The code here takes some of it. */
#ifndef SMALL_THREAD_H
#define SMALL_THREAD_H

#include <pthread.h>
#include <stdint.h>

enum { STACK = 64 * 1024 };

/* As pthread_create. */
static inline int start_small_thread(pthread_t *thread, void *(*work)(void *), void *argument)
{
    pthread_attr_t attributes;
    int error = pthread_attr_init(&attributes);

    if (error)
        return error;
    error = pthread_attr_setstacksize(&attributes, STACK);
    if (!error)
        error = pthread_create(thread, &attributes, work, argument);
    pthread_attr_destroy(&attributes);
    return error;
}

struct seeded {
    int (*run)(uint64_t seed, unsigned long count);
    uint64_t seed;
    unsigned long count;
    int status;
};

static inline void *run_seeded(void *argument)
{
    struct seeded *it = argument;

    it->status = it->run(it->seed, it->count);
    return NULL;
}

/* Runs a function in such a thread and returns its result, or 99 if there is no thread. */
static inline int in_small_thread(int (*run)(uint64_t seed, unsigned long count), uint64_t seed,
                                  unsigned long count)
{
    struct seeded it = { run, seed, count, 99 };
    pthread_t thread;

    if (!start_small_thread(&thread, run_seeded, &it))
        pthread_join(thread, NULL);
    return it.status;
}

#endif
