/* A program of which a part is watched: measured THREADS ROUNDS TIMES REST. In each of its rounds each thread makes TIMES additions that
 * are watched, and REST steps of a random number generator that are not. Prints the seconds that the threads took. */
#include "measured.h"

#include <pthread.h>
#include <stdio.h>
#include <stdlib.h>
#include <time.h>

static long rounds, times, rest;
static pthread_barrier_t meeting;
static volatile unsigned long seen;

static void *work(void *nothing)
{
    unsigned *array = calloc(64, sizeof *array);
    unsigned long random = 88172645463325252u;
    pthread_barrier_wait(&meeting);
    race();
    for (long i = 0; i < rounds; i++) {
        add(array, times);
        for (long j = 0; j < rest; j++) {
            random ^= random << 13;
            random ^= random >> 7;
            random ^= random << 17;
        }
    }
    seen = random;
    free(array);
    return nothing;
}

int main(int count, char **words)
{
    pthread_t threads[16];
    struct timespec begin, end;
    if (count != 5)
        return 2;
    int number = atoi(words[1]);
    rounds = atol(words[2]);
    times = atol(words[3]);
    rest = atol(words[4]);
    pthread_barrier_init(&meeting, NULL, (unsigned)number);
    clock_gettime(CLOCK_MONOTONIC, &begin);
    for (int i = 0; i < number; i++)
        pthread_create(&threads[i], NULL, work, NULL);
    for (int i = 0; i < number; i++)
        pthread_join(threads[i], NULL);
    clock_gettime(CLOCK_MONOTONIC, &end);
    printf("%.6f\n", (double)(end.tv_sec - begin.tv_sec) + (double)(end.tv_nsec - begin.tv_nsec) / 1e9);
    return 0;
}
