/* A semaphore that hands over a word, in the four ways to wait for it. Whoever tries again and again makes no events meanwhile, since that may take long. */
#define _GNU_SOURCE
#include "../meet.h"

#include <semaphore.h>

static sem_t full, spare;
static int slot, late;

static int wait_for_a_time(int way)
{
    struct timespec when = soon(way == 2 ? CLOCK_REALTIME : CLOCK_MONOTONIC, 999);
    return way == 2 ? sem_timedwait(&full, &when) : sem_clockwait(&full, CLOCK_MONOTONIC, &when);
}

static int wait_in_turn(int way)
{
    switch (way) {
    case 0: return sem_wait(&full);
    case 1: return sem_trywait(&full);
    default: return wait_for_a_time(way);
    }
}

static void run(int number)
{
    for (int way = 0; way < 4; way++)
        if (number == 0) {
            slot++;
            sem_post(&full);
            sem_wait(&spare);
        } else {
            while (wait_in_turn(way) != 0)
                sched_yield();
            slot++;
            sem_post(&spare);
        }
    /* What comes after the last post is not handed over. */
    if (number == 0) {
        late++;
        next_turn();
    } else {
        take_turn(1);
        late++; /* UNORDERED */
    }
}

int main(void)
{
    sem_init(&full, 0, 0);
    sem_init(&spare, 0, 0);
    run_threads(2, run);
    slot++;
    return 0;
}
