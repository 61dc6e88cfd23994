/* A condition variable with a monotonic clock, which the oldest version of its functions does not know; C11 mutexes and conditions. */
#define _GNU_SOURCE
#include "meet.h"

#include <errno.h>
#include <threads.h>

static pthread_mutex_t lock = PTHREAD_MUTEX_INITIALIZER, alone = PTHREAD_MUTEX_INITIALIZER;
static pthread_cond_t never;
static mtx_t plain;
static cnd_t also_never;
static int guarded, c11_guarded, bare, after_wait;

/* Nobody else wants this mutex during the wait. It is released behind it, and what follows is not protected. */
static void wait_alone(int number)
{
    take_turn(number);
    struct timespec when = soon(CLOCK_MONOTONIC, 20);
    pthread_mutex_lock(&alone);
    while (pthread_cond_timedwait(&never, &alone, &when) != ETIMEDOUT)
        ;
    pthread_mutex_unlock(&alone);
    after_wait++; /* RACE */
    next_turn();
}

static void work(int number)
{
    meet();
    wait_alone(number);
    pthread_mutex_lock(&lock);
    guarded++;
    struct timespec before, after, when;
    clock_gettime(CLOCK_MONOTONIC, &before);
    when = soon(CLOCK_MONOTONIC, 20);
    while (pthread_cond_timedwait(&never, &lock, &when) != ETIMEDOUT)
        ;
    clock_gettime(CLOCK_MONOTONIC, &after);
    when = soon(CLOCK_MONOTONIC, 20);
    while (pthread_cond_clockwait(&never, &lock, CLOCK_MONOTONIC, &when) != ETIMEDOUT)
        ;
    guarded++;
    pthread_mutex_unlock(&lock);
    if ((after.tv_sec - before.tv_sec) * 1000 + (after.tv_nsec - before.tv_nsec) / 1000000 < 15)
        exit(1);

    mtx_lock(&plain);
    c11_guarded++;
    when = soon(CLOCK_REALTIME, 20);
    while (cnd_timedwait(&also_never, &plain, &when) != thrd_timedout)
        ;
    c11_guarded++;
    mtx_unlock(&plain);
    if (mtx_trylock(&plain) == thrd_success) {
        c11_guarded++;
        mtx_unlock(&plain);
    }
    bare++; /* RACE */
}

int main(void)
{
    pthread_condattr_t how;
    pthread_condattr_init(&how);
    pthread_condattr_setclock(&how, CLOCK_MONOTONIC);
    pthread_cond_init(&never, &how);
    mtx_init(&plain, mtx_timed);
    cnd_init(&also_never);
    run_threads(2, work);
    pthread_cond_destroy(&never);
    cnd_destroy(&also_never);
    mtx_destroy(&plain);
    return 0;
}
