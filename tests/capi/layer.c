/* Makes the calls that the lines of its standard input say, each in the thread that the line names, one after the other, and prints what each one answers.
 * A call that finds no memory is made again. With ERASER_AUDIT in the environment a last line says what the calls come to. */
#include "eraser_detector.h"

#include <pthread.h>
#include <stdio.h>
#include <stdlib.h>
#include <string.h>

enum { THREADS = 4, STEPS = 4096, LOCKS = 128 };

struct step {
    unsigned thread;
    char verb[16];
    unsigned long long first, second;
};

static struct step steps[STEPS];
static unsigned count, turn;
static pthread_mutex_t mutex = PTHREAD_MUTEX_INITIALIZER;
static pthread_cond_t next = PTHREAD_COND_INITIALIZER;
static eraser_detector *detector;
static char locks[LOCKS];
static struct eraser_race found;
static uint32_t numbers[THREADS];

static void note(void *context, const struct eraser_race *race)
{
    if (context != steps || race->locks == NULL || race->site == NULL || eraser_read(detector, steps, 4) != ERASER_BUSY)
        exit(4);
    /* A call that is made again may find a race of a further word. */
    if (!found.word)
        found = *race;
}

static uint32_t call(const struct step *step)
{
    const void *place = (const void *)(uintptr_t)step->first;
    if (strcmp(step->verb, "lock") == 0)
        return eraser_locked(detector, &locks[step->first], step->second);
    if (strcmp(step->verb, "unlock") == 0)
        return eraser_unlocking(detector, &locks[step->first]);
    if (strcmp(step->verb, "ignore-on") == 0)
        return eraser_ignore_begin(detector);
    if (strcmp(step->verb, "ignore-off") == 0)
        return eraser_ignore_end(detector);
    if (strcmp(step->verb, "read") == 0)
        return eraser_read(detector, place, step->second);
    if (strcmp(step->verb, "write") == 0)
        return eraser_write(detector, place, step->second);
    if (strcmp(step->verb, "free") == 0)
        return eraser_freeing(detector, place, step->second);
    if (strcmp(step->verb, "look") == 0)
        return eraser_look(detector, place);
    exit(2);
}

static void answer(const struct step *step)
{
    uint32_t status;
    found = (struct eraser_race){0};
    while ((status = call(step)) == ERASER_OUT_OF_MEMORY) {
    }
    if (!found.word) {
        printf("%s\n", eraser_text(status));
        return;
    }
    unsigned other = THREADS;
    for (unsigned at = 0; at < THREADS; at++)
        if (numbers[at] && numbers[at] == found.other)
            other = at;
    bool is_ours = found.thread == numbers[step->thread] && found.address == (void *)(uintptr_t)step->first && found.size == step->second;
    if (!is_ours || found.writes != (step->verb[0] == 'w'))
        exit(5);
    printf("race 0x%llx after %u holding", (unsigned long long)(uintptr_t)found.word, other);
    for (size_t at = 0; at < found.lock_count; at++)
        printf(" %d%s", (int)((const volatile char *)found.locks[at] - locks), found.lock_writes[at] ? "" : "r");
    printf("\n");
}

static void *run(void *given)
{
    unsigned me = (unsigned)(uintptr_t)given;
    pthread_mutex_lock(&mutex);
    while (turn < count) {
        if (steps[turn].thread == me) {
            while (!numbers[me])
                numbers[me] = eraser_self(detector);
            answer(&steps[turn]);
            turn++;
            pthread_cond_broadcast(&next);
        } else {
            pthread_cond_wait(&next, &mutex);
        }
    }
    pthread_mutex_unlock(&mutex);
    return NULL;
}

int main(void)
{
    static char input[1 << 16], output[1 << 16];
    char line[256];
    pthread_t threads[THREADS];
    struct eraser_options options = {.shards = 3, .on_race = note, .context = steps};
    setvbuf(stdin, input, _IOFBF, sizeof input);
    setvbuf(stdout, output, _IOFBF, sizeof output);
    while (count < STEPS && fgets(line, sizeof line, stdin)) {
        struct step *step = &steps[count++];
        if (sscanf(line, "%u %15s %llu %llu", &step->thread, step->verb, &step->first, &step->second) != 4 || step->thread >= THREADS)
            return 2;
    }
    while (!(detector = eraser_start(&options))) {
    }
    for (unsigned at = 0; at < THREADS; at++)
        while (pthread_create(&threads[at], NULL, run, (void *)(uintptr_t)at) != 0) {
        }
    for (unsigned at = 0; at < THREADS; at++)
        pthread_join(threads[at], NULL);
    if (getenv("ERASER_AUDIT")) {
        uint64_t steps = 0;
        uint32_t status;
        while ((status = eraser_settle(detector, &steps)) == ERASER_OUT_OF_MEMORY) {
        }
        printf("%s %llu\n", eraser_text(status), (unsigned long long)steps);
    }
    eraser_stop(detector);
    return 0;
}
