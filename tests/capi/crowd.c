/* Eight threads at work at once at an audited detector, in two generations: all their calls settle, and none is missing. */
#include "checks.h"

enum { THREADS = 8, ROUNDS = 200, WORDS = 5000 };

static eraser_detector *detector;
static pthread_mutex_t mutex = PTHREAD_MUTEX_INITIALIZER;
static int guarded[WORDS], bare[WORDS], own[THREADS][1024];

static void ignore(void *context, const struct eraser_race *race)
{
    (void)context;
    (void)race;
}

static void *work(void *given)
{
    size_t me = (uintptr_t)given;
    for (size_t round = 0; round < ROUNDS; round++) {
        size_t at = (round * 37 + me * 11) % WORDS;
        pthread_mutex_lock(&mutex);
        CHECK(eraser_locked(detector, &mutex, true) == ERASER_QUIET && eraser_write(detector, &guarded[at], 4) == ERASER_QUIET);
        CHECK(eraser_unlocking(detector, &mutex) == ERASER_QUIET);
        pthread_mutex_unlock(&mutex);
        CHECK(eraser_write(detector, &bare[round % 7], 4) <= ERASER_RACE);
        CHECK(eraser_write(detector, &own[me][round], 4) == ERASER_QUIET && eraser_freeing(detector, &own[me][round], 4) == ERASER_QUIET);
    }
    return NULL;
}

int main(void)
{
    pthread_t threads[THREADS];
    uint64_t steps[2] = {0, 0};
    struct eraser_options options = {.shards = 4, .on_race = ignore, .audit = true};
    detector = eraser_start(&options);
    CHECK(detector);
    for (size_t generation = 0; generation < 2; generation++) {
        for (size_t at = 0; at < THREADS; at++)
            CHECK(pthread_create(&threads[at], NULL, work, (void *)at) == 0);
        for (size_t at = 0; at < THREADS; at++)
            CHECK(pthread_join(threads[at], NULL) == 0);
        /* The detector goes on after a settlement. */
        CHECK(eraser_settle(detector, &steps[generation]) == ERASER_QUIET && steps[generation] == (generation + 1) * THREADS * ROUNDS * 6);
    }
    eraser_stop(detector);
    printf("fine\n");
    return 0;
}
