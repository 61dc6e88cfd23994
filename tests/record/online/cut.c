/* Threads that are cancelled at any instruction, some in a handler that has interrupted a call that waits, and a handler that leaves by longjmp:
 * afterwards all words can still be used. */
#include "../meet.h"

#include <setjmp.h>
#include <signal.h>
#include <sys/time.h>
#include <unistd.h>

enum { ROUNDS = 20 };
static int words[4096];
static volatile sig_atomic_t rounds, is_handling;
static sigjmp_buf back;

static void use_all(void)
{
    for (int at = 0; at < 4096; at++)
        words[at]++;
}

static void *count(void *nothing)
{
    int before;
    pthread_setcanceltype(PTHREAD_CANCEL_ASYNCHRONOUS, &before);
    next_turn();
    for (;;)
        use_all();
    return nothing;
}

/* If it hasn't interrupted `pause`, the thread is cancelled there afterwards. */
static void handle(int number)
{
    (void)number;
    is_handling = 1;
    for (int nth = 0; nth < 50; nth++)
        use_all();
}

static void *wait_and_handle(void *nothing)
{
    next_turn();
    for (;;)
        pause();
    return nothing;
}

static void cancel(void *(*body)(void *), int turns, int number)
{
    pthread_t thread;
    if (pthread_create(&thread, NULL, body, NULL) != 0)
        exit(99);
    take_turn(turns);
    if (number) {
        usleep(1000);
        pthread_kill(thread, number);
        while (!is_handling)
            sched_yield();
        is_handling = 0;
    }
    pthread_cancel(thread);
    pthread_join(thread, NULL);
}

static void leave(int number)
{
    rounds++;
    siglongjmp(back, number);
}

int main(void)
{
    signal(SIGALRM, leave);
    signal(SIGUSR1, handle);
    for (int turns = 1; turns <= ROUNDS; turns++)
        cancel(count, turns, 0);
    for (int turns = ROUNDS + 1; turns <= 2 * ROUNDS; turns++)
        cancel(wait_and_handle, turns, SIGUSR1);
    if (sigsetjmp(back, 1) == 0)
        setitimer(ITIMER_REAL, &(struct itimerval){{0, 300}, {0, 300}}, NULL);
    while (rounds < ROUNDS)
        use_all();
    setitimer(ITIMER_REAL, &(struct itimerval){{0, 0}, {0, 0}}, NULL);
    use_all();
    printf("%d\n", rounds >= ROUNDS);
    return 0;
}
