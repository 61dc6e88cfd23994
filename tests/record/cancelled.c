/* A thread that is cancelled in a wait cleans up under the mutex. Names of threads. */
#define _GNU_SOURCE
#include "meet.h"

#include <string.h>
#include <unistd.h>

static pthread_mutex_t lock = PTHREAD_MUTEX_INITIALIZER;
static pthread_cond_t never = PTHREAD_COND_INITIALIZER;
static int guarded, is_waiting;

static void clean_up(void *nothing)
{
    (void)nothing;
    guarded++;
    pthread_mutex_unlock(&lock);
}

static void *wait_for_ever(void *nothing)
{
    pthread_setname_np(pthread_self(), "waiter");
    pthread_mutex_lock(&lock);
    pthread_cleanup_push(clean_up, NULL);
    guarded++;
    is_waiting = 1;
    for (;;)
        pthread_cond_wait(&never, &lock);
    pthread_cleanup_pop(0);
    return nothing;
}

int main(void)
{
    pthread_t waiter;
    pthread_create(&waiter, NULL, wait_for_ever, NULL);
    for (int is_there = 0; !is_there;) {
        pthread_mutex_lock(&lock);
        is_there = is_waiting;
        guarded++;
        pthread_mutex_unlock(&lock);
        sched_yield();
    }
    pthread_cancel(waiter);
    pthread_join(waiter, NULL);
    pthread_mutex_lock(&lock);
    guarded++;
    pthread_mutex_unlock(&lock);
    return 0;
}
