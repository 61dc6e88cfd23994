/* Condition variables. The waiter waits before the other thread signals. */
#define _GNU_SOURCE
#include "../meet.h"

static pthread_mutex_t lock = PTHREAD_MUTEX_INITIALIZER;
static pthread_cond_t changed = PTHREAD_COND_INITIALIZER;
static int is_waiting, round_number, word;

static int wait_in_turn(int way)
{
    struct timespec when = soon(way == 1 ? CLOCK_REALTIME : CLOCK_MONOTONIC, 999);
    switch (way) {
    case 0: return pthread_cond_wait(&changed, &lock);
    case 1: return pthread_cond_timedwait(&changed, &lock, &when);
    default: return pthread_cond_clockwait(&changed, &lock, CLOCK_MONOTONIC, &when);
    }
}

static void wait_for_it(int way)
{
    pthread_mutex_lock(&lock);
    __atomic_store_n(&is_waiting, way + 1, __ATOMIC_RELAXED);
    while (round_number <= way)
        wait_in_turn(way);
    pthread_mutex_unlock(&lock);
    word++;
}

static void wake_it(int way)
{
    word++;
    while (__atomic_load_n(&is_waiting, __ATOMIC_RELAXED) != way + 1)
        sched_yield();
    pthread_mutex_lock(&lock);
    round_number++;
    if (way == 0)
        pthread_cond_signal(&changed);
    else
        pthread_cond_broadcast(&changed);
    pthread_mutex_unlock(&lock);
    meet();
}

static void run(int number)
{
    for (int way = 0; way < 3; way++)
        if (number == 0)
            wake_it(way);
        else {
            wait_for_it(way);
            meet();
        }
}

int main(void)
{
    run_threads(2, run);
    word++;
    return 0;
}
