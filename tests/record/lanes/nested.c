/* Signal handlers that interrupt a thread which is recorded, and each other: `nested SIGNALS WRITES`. Main sends so many signals of each of two kinds, and a
 * handler makes so many writes. Prints how many the thread itself made.
 *
 * Main sends a signal when the last one of its kind was handled. So none is merged with another one, and each is in a handler at any speed. */
#define _GNU_SOURCE
#include "../../../record/eraser.h"
#include "../meet.h"

#include <signal.h>

/* The worker's writes for each signal at most, and its other events: on a busy machine a signal may take long, and the trace would have gigabytes. It has no line
 * of the others, since no page of `unused` is ever used. */
#define MOST 200
#define MOST_OTHERS 20000

static long signals, writes;
static volatile int one, other, own;
static _Alignas(4096) char unused[4096];
static long ones, others;

static void handle_one(int number)
{
    (void)number;
    for (long left = writes; left; left--)
        one = 1; /* ONE */
    __atomic_fetch_add(&ones, 1, __ATOMIC_SEQ_CST);
}

static void handle_other(int number)
{
    (void)number;
    for (long left = writes; left; left--)
        other = 1; /* OTHER */
    __atomic_fetch_add(&others, 1, __ATOMIC_SEQ_CST);
}

static long handled(void)
{
    long first = __atomic_load_n(&ones, __ATOMIC_SEQ_CST), second = __atomic_load_n(&others, __ATOMIC_SEQ_CST);
    return first < second ? first : second;
}

static void *work(void *nothing)
{
    /* Who waits makes no accesses. */
    const long wanted = signals;
    long worked = 0, others_made = 0;
    for (long done; (done = handled()) < wanted;) {
        for (int i = 0; i < 50 && worked < MOST * (done + 1); i++, worked++)
            own = 1; /* OWN */
        if (worked < MOST * (done + 1))
            continue;
        for (int i = 0; i < 50 && others_made < MOST_OTHERS * (done + 1); i++, others_made++)
            ERASER_REUSE(&unused, sizeof unused);
        if (others_made == MOST_OTHERS * (done + 1))
            sched_yield();
    }
    printf("%ld\n", worked);
    return nothing;
}

int main(int count, char **words)
{
    const long wanted = count > 1 ? atol(words[1]) : 100;
    signals = wanted;
    writes = count > 2 ? atol(words[2]) : 20;
    struct sigaction action = {.sa_handler = handle_one};
    sigaction(SIGUSR1, &action, NULL);
    action.sa_handler = handle_other;
    sigaction(SIGUSR2, &action, NULL);
    pthread_t worker;
    pthread_create(&worker, NULL, work, NULL);
    for (long sent_ones = 0, sent_others = 0; sent_ones < wanted || sent_others < wanted; sched_yield()) {
        if (sent_ones < wanted && __atomic_load_n(&ones, __ATOMIC_SEQ_CST) == sent_ones && ++sent_ones)
            pthread_kill(worker, SIGUSR1);
        if (sent_others < wanted && __atomic_load_n(&others, __ATOMIC_SEQ_CST) == sent_others && ++sent_others)
            pthread_kill(worker, SIGUSR2);
    }
    pthread_join(worker, NULL);
    return 0;
}
