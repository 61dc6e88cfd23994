/* What the test programs share. Threads meet at barriers, and where one must come after another, it waits for its turn by relaxed atomic
 * operations, which order nothing for a race detector. */
#ifndef MEET_H
#define MEET_H

#include <pthread.h>
#include <sched.h>
#include <stdio.h>
#include <stdlib.h>
#include <time.h>

static pthread_barrier_t meeting;
static int turn;

static inline void meet(void) { pthread_barrier_wait(&meeting); }
static inline void take_turn(int number) { while (__atomic_load_n(&turn, __ATOMIC_RELAXED) != number) sched_yield(); }
static inline void next_turn(void) { __atomic_fetch_add(&turn, 1, __ATOMIC_RELAXED); }

/* The time of a clock in so many milliseconds, fewer than 1,000. */
static inline struct timespec soon(clockid_t clock, long milliseconds)
{
    struct timespec when;
    clock_gettime(clock, &when);
    when.tv_nsec += milliseconds * 1000000;
    if (when.tv_nsec >= 1000000000) {
        when.tv_sec++;
        when.tv_nsec -= 1000000000;
    }
    return when;
}

/* Runs a body in `count` threads, each with its number from 0, and waits for them. */
typedef void body(int number);
struct start { body *run; int number; };
static inline void *run_start(void *given)
{
    struct start start = *(struct start *)given;
    start.run(start.number);
    return NULL;
}
static inline void run_threads(int count, body *run)
{
    pthread_t threads[16];
    struct start starts[16];
    pthread_barrier_init(&meeting, NULL, (unsigned)count);
    for (int i = 0; i < count; i++) {
        starts[i].run = run;
        starts[i].number = i;
        if (pthread_create(&threads[i], NULL, run_start, &starts[i]) != 0)
            exit(99);
    }
    for (int i = 0; i < count; i++)
        pthread_join(threads[i], NULL);
    pthread_barrier_destroy(&meeting);
}

/* Starts `count` threads that nobody joins. */
static inline void run_unjoined(int count, void *(*use)(void *))
{
    pthread_attr_t how;
    pthread_attr_init(&how);
    pthread_attr_setdetachstate(&how, PTHREAD_CREATE_DETACHED);
    for (int i = 0; i < count; i++) {
        pthread_t thread;
        if (pthread_create(&thread, &how, use, NULL) != 0)
            exit(99);
    }
}

#endif
