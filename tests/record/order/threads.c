/* Threads that start others and join them. */
#define _GNU_SOURCE
#include "../meet.h"

static int given, kept, passed_on, alone;
static pthread_t second;

static void *run_second(void *nothing)
{
    passed_on++;
    return nothing;
}

/* Starts a thread that somebody else joins. */
static void *run_first(void *nothing)
{
    given++;
    passed_on++;
    if (pthread_create(&second, NULL, run_second, NULL) != 0)
        exit(99);
    kept++;
    return nothing;
}

static void *run_detached(void *nothing)
{
    alone++;
    next_turn();
    return nothing;
}

static void start_and_join(void)
{
    pthread_t first;
    given = 1;
    if (pthread_create(&first, NULL, run_first, NULL) != 0)
        exit(99);
    pthread_join(first, NULL);
    kept++;
    pthread_join(second, NULL);
    passed_on++;
}

/* It makes no accesses, since it may try for long. */
static void try_to_join(pthread_t thread)
{
    while (pthread_tryjoin_np(thread, NULL) != 0)
        sched_yield();
}

/* Joins that may fail: only the last one counts. */
static void join_with_patience(void)
{
    pthread_t thread;
    struct timespec when = soon(CLOCK_MONOTONIC, 1);
    if (pthread_create(&thread, NULL, run_second, NULL) != 0)
        exit(99);
    if (pthread_clockjoin_np(thread, NULL, CLOCK_MONOTONIC, &when) != 0)
        try_to_join(thread);
    passed_on++;
}

/* Nobody joins it. */
static void start_detached(void)
{
    pthread_attr_t how;
    pthread_t thread;
    pthread_attr_init(&how);
    pthread_attr_setdetachstate(&how, PTHREAD_CREATE_DETACHED);
    if (pthread_create(&thread, &how, run_detached, NULL) != 0)
        exit(99);
    pthread_attr_destroy(&how);
    take_turn(1);
    alone++; /* UNORDERED */
}

/* Threads that have the pthread_t of those before. */
static void start_many(void)
{
    for (int i = 0; i < 20; i++) {
        pthread_t thread;
        if (pthread_create(&thread, NULL, run_second, NULL) != 0)
            exit(99);
        pthread_join(thread, NULL);
        passed_on++;
    }
}

int main(void)
{
    start_and_join();
    join_with_patience();
    start_many();
    start_detached();
    return 0;
}
