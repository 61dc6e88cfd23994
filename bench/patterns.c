/* Threads that use memory in one of four ways: patterns PATTERN THREADS WORDS ROUNDS. Prints how many accesses were made and in how many microseconds.
 *
 * With LIBRARY each access is a call of the detector, and the bytes that the detector took are printed. Without, it is a plain access: compiled with
 * -fsanitize=thread this measures ThreadSanitizer. No word races. */
#include <malloc.h>
#include <pthread.h>
#include <stdint.h>
#include <stdio.h>
#include <stdlib.h>
#include <string.h>
#include <time.h>

#ifdef LIBRARY
#include "eraser_detector.h"
static eraser_detector *detector;
#define READ(place) eraser_read(detector, place, 4)
#define WRITE(place) eraser_write(detector, place, 4)
#define LOCKED() eraser_locked(detector, &mutex, true)
#define UNLOCKING() eraser_unlocking(detector, &mutex)
#else
#define READ(place) ((void)*(volatile uint32_t *)(place))
#define WRITE(place) (*(volatile uint32_t *)(place) = 1)
#define LOCKED()
#define UNLOCKING()
#endif

enum { MOST = 64 };

static unsigned pattern, threads;
static size_t words, rounds;
static uint32_t *data;
static pthread_mutex_t mutex = PTHREAD_MUTEX_INITIALIZER;
static pthread_barrier_t meeting;

static void *run(void *given)
{
    size_t me = (size_t)(uintptr_t)given, own = words / threads;
    uint32_t *mine = data + own * me;
    uint64_t dice = 88172645463325252u + me;
    pthread_barrier_wait(&meeting);
    for (size_t round = 0; round < rounds; round++) {
        if (pattern == 2) {
            pthread_mutex_lock(&mutex);
            LOCKED();
        }
        for (size_t at = 0; at < own; at++) {
            if (pattern == 0) {
                WRITE(mine + at);
            } else if (pattern == 1) {
                dice ^= dice << 13, dice ^= dice >> 7, dice ^= dice << 17;
                if (dice & 1)
                    WRITE(mine + dice % own);
                else
                    READ(mine + dice % own);
            } else if (pattern == 2) {
                if (at & 1)
                    WRITE(data + (at * threads + me) % words);
                else
                    READ(data + (at * threads + me) % words);
            } else {
                READ(data + at);
            }
        }
        if (pattern == 2) {
            UNLOCKING();
            pthread_mutex_unlock(&mutex);
        }
    }
    return NULL;
}

static uint64_t now(void)
{
    struct timespec time;
    clock_gettime(CLOCK_MONOTONIC, &time);
    return (uint64_t)time.tv_sec * 1000000 + (uint64_t)time.tv_nsec / 1000;
}

int main(int count, char **given)
{
    pthread_t started[MOST];
    if (count != 5 || (threads = (unsigned)atoi(given[2])) == 0 || threads > MOST)
        return 2;
    pattern = (unsigned)atoi(given[1]);
    words = (size_t)atol(given[3]);
    rounds = (size_t)atol(given[4]);
    data = aligned_alloc(4096, words * 4 / 4096 * 4096 + 4096);
    if (!data)
        return 2;
    memset(data, 0, words * 4);
    size_t taken = 0;
#ifdef LIBRARY
    if (!(detector = eraser_start(NULL)))
        return 2;
    taken = mallinfo2().uordblks + mallinfo2().hblkhd;
#endif
    pthread_barrier_init(&meeting, NULL, threads + 1);
    for (size_t at = 0; at < threads; at++)
        if (pthread_create(&started[at], NULL, run, (void *)(uintptr_t)at) != 0)
            return 2;
    uint64_t begin = now();
    pthread_barrier_wait(&meeting);
    for (size_t at = 0; at < threads; at++)
        pthread_join(started[at], NULL);
    uint64_t end = now();
#ifdef LIBRARY
    taken = mallinfo2().uordblks + mallinfo2().hblkhd - taken;
#endif
    printf("%zu %llu %zu\n", rounds * (words / threads) * threads, (unsigned long long)(end - begin), taken);
    return 0;
}
