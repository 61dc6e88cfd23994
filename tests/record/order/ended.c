/* Objects that are destroyed, and new ones at the same addresses. What orders threads by the old one says nothing of the new one. And
 * a post that fails, and a signal handler that posts. */
#define _GNU_SOURCE
#include "../meet.h"

#include <errno.h>
#include <limits.h>
#include <semaphore.h>
#include <signal.h>
#include <threads.h>

static sem_t reused, full, woken;
static cnd_t changed;
static pthread_cond_t fresh = PTHREAD_COND_INITIALIZER;
static pthread_barrier_t round_trip;
static int handed, old_word, full_word, posted;

static void check(int is_right)
{
    if (!is_right)
        exit(99);
}

/* A thread that the old semaphore does not order. The new one was posted by somebody else. */
static void use_semaphore(int number)
{
    if (number == 0) {
        old_word++;
        check(sem_post(&reused) == 0 && sem_wait(&reused) == 0);
        check(sem_destroy(&reused) == 0 && sem_init(&reused, 0, 1) == 0);
        next_turn();
    } else {
        take_turn(1);
        check(sem_wait(&reused) == 0);
        old_word++; /* UNORDERED */
        next_turn();
    }
}

/* A post of a semaphore that is at its greatest value lets nobody go. */
static void use_full(int number)
{
    if (number == 0) {
        take_turn(2);
        full_word++;
        check(sem_post(&full) != 0 && errno == EOVERFLOW);
        next_turn();
    } else {
        take_turn(3);
        check(sem_wait(&full) == 0);
        full_word++; /* UNORDERED */
    }
}

static void post(int number)
{
    (void)number;
    sem_post(&woken);
}

/* What a signal handler posts is a signal of its thread. */
static void use_handler(int number)
{
    if (number == 0) {
        posted++;
        raise(SIGUSR1);
    } else {
        check(sem_wait(&woken) == 0);
        posted++;
    }
}

/* Whoever is let go first destroys the barrier, while the other one may still leave. */
static void use_barrier(int number)
{
    if (number == 0)
        handed++;
    if (pthread_barrier_wait(&round_trip) == PTHREAD_BARRIER_SERIAL_THREAD)
        check(pthread_barrier_destroy(&round_trip) == 0);
    if (number == 1)
        handed++;
}

/* Of the second `fresh` nobody says that it begins, only that the first one ends. */
static void use_conditions(void)
{
    cnd_init(&changed);
    cnd_signal(&changed);
    cnd_destroy(&changed);
    cnd_init(&changed);
    cnd_broadcast(&changed);
    cnd_destroy(&changed);
    pthread_cond_signal(&fresh);
    check(pthread_cond_destroy(&fresh) == 0);
    fresh = (pthread_cond_t)PTHREAD_COND_INITIALIZER;
    pthread_cond_broadcast(&fresh);
}

static void run(int number)
{
    use_semaphore(number);
    use_full(number);
    use_handler(number);
    use_barrier(number);
}

int main(void)
{
    signal(SIGUSR1, post);
    sem_init(&reused, 0, 0);
    sem_init(&full, 0, SEM_VALUE_MAX);
    sem_init(&woken, 0, 0);
    use_conditions();
    pthread_barrier_init(&round_trip, NULL, 2);
    run_threads(2, run);
    sem_destroy(&full);
    sem_destroy(&woken);
    return 0;
}
