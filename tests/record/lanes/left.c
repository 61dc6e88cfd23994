/* Signal handlers that leave what they interrupted by longjmp, while handlers of another kind come and go, and threads that end while signals come to them:
 * `left ROUNDS`. What was left may be lost; nothing may hang or crash, and what comes later is recorded. Prints how many writes came later. */
#define _GNU_SOURCE
#include "../meet.h"

#include <setjmp.h>
#include <signal.h>

#define LATER 1000

static int rounds, jumps, is_ready;
static volatile int worked, other, later;
static sigjmp_buf back;

static void leave(int number)
{
    (void)number;
    siglongjmp(back, 1);
}

static void handle(int number)
{
    (void)number;
    for (int i = 0; i < 5; i++)
        other = 1;
}

/* Each jump comes back here, and `rounds` of them are wanted. After many turns it makes no accesses any more, since a jump may take long. */
static void *work(void *nothing)
{
    const int wanted = rounds;
    sigset_t leaving;
    sigemptyset(&leaving);
    sigaddset(&leaving, SIGUSR1);
    if (sigsetjmp(back, 1) != 0)
        __atomic_fetch_add(&jumps, 1, __ATOMIC_SEQ_CST);
    __atomic_store_n(&is_ready, 1, __ATOMIC_SEQ_CST);
    for (int turn = 0; __atomic_load_n(&jumps, __ATOMIC_SEQ_CST) < wanted; turn++) {
        for (int i = 0; i < 50 && turn < 1000; i++)
            worked = 1;
        sched_yield();
    }
    pthread_sigmask(SIG_BLOCK, &leaving, NULL);
    for (int i = 0; i < LATER; i++)
        later = 1; /* LATER */
    return nothing;
}

/* A thread that ends while signals come. */
static void *end(void *nothing)
{
    worked = 1;
    return nothing;
}

int main(int count, char **words)
{
    rounds = count > 1 ? atoi(words[1]) : 100;
    struct sigaction action = {.sa_handler = leave};
    sigaction(SIGUSR1, &action, NULL);
    action.sa_handler = handle;
    sigaction(SIGUSR2, &action, NULL);
    pthread_t worker;
    pthread_create(&worker, NULL, work, NULL);
    while (!__atomic_load_n(&is_ready, __ATOMIC_SEQ_CST))
        sched_yield();
    for (int done; (done = __atomic_load_n(&jumps, __ATOMIC_SEQ_CST)) < rounds;) {
        pthread_kill(worker, SIGUSR2);
        pthread_kill(worker, SIGUSR1);
        while (__atomic_load_n(&jumps, __ATOMIC_SEQ_CST) == done)
            sched_yield();
    }
    pthread_join(worker, NULL);
    for (int i = 0; i < rounds; i++) {
        pthread_create(&worker, NULL, end, NULL);
        for (int sent = 0; sent < 3; sent++)
            pthread_kill(worker, SIGUSR2);
        pthread_join(worker, NULL);
    }
    for (int i = 0; i < LATER; i++)
        later = 1; /* LATER */
    printf("%d\n", 2 * LATER);
    return 0;
}
