/* Tries that fail acquire nothing: neither trylock nor the forms with a time. Those that succeed do. */
#define _GNU_SOURCE
#include "meet.h"

#include <errno.h>

static int skipped, timed, clocked, guarded;
static pthread_mutex_t lock = PTHREAD_MUTEX_INITIALIZER;

static void hold(void)
{
    pthread_mutex_lock(&lock);
    skipped = timed = clocked = 1;
    meet();
    meet();
    pthread_mutex_unlock(&lock);
}

static void try(void)
{
    meet();
    struct timespec when = soon(CLOCK_REALTIME, 1), other = soon(CLOCK_MONOTONIC, 1);
    int first = pthread_mutex_trylock(&lock);
    skipped++; /* RACE */
    int second = pthread_mutex_timedlock(&lock, &when);
    timed++; /* RACE */
    int third = pthread_mutex_clocklock(&lock, CLOCK_MONOTONIC, &other);
    clocked++; /* RACE */
    if (first != EBUSY || second != ETIMEDOUT || third != ETIMEDOUT)
        exit(1);
    meet();
}

static void work(int number)
{
    if (number)
        hold();
    else
        try();
    meet();
    for (int i = 0; i < 5; i++) {
        while (pthread_mutex_trylock(&lock) != 0)
            sched_yield();
        guarded++;
        pthread_mutex_unlock(&lock);
        struct timespec when = soon(CLOCK_REALTIME, 1);
        if (pthread_mutex_timedlock(&lock, &when) == 0) {
            guarded++;
            pthread_mutex_unlock(&lock);
        }
    }
}

int main(void)
{
    run_threads(2, work);
    return 0;
}
