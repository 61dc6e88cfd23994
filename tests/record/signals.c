/* A signal handler that is recorded, in a thread that is being recorded. It comes at any point of the recorder too. */
#include "meet.h"

#include <signal.h>

#define SIGNALS 300
static int handled, worked, bare;
static int is_over;
static pthread_t worker;

static void handle(int number)
{
    (void)number;
    for (int i = 0; i < 20; i++)
        handled++;
}

static void work(int number)
{
    if (number == 0)
        worker = pthread_self();
    meet();
    bare++; /* RACE */
    if (number == 1) {
        for (int i = 0; i < SIGNALS; i++) {
            pthread_kill(worker, SIGUSR1);
            sched_yield();
        }
        __atomic_store_n(&is_over, 1, __ATOMIC_SEQ_CST);
    } else /* On a busy machine the signals take long, and a trace has a limit. */
        for (int turn = 0; !__atomic_load_n(&is_over, __ATOMIC_SEQ_CST); turn++, sched_yield())
            for (int i = 0; i < 20 && turn < 20000; i++)
                worked++;
    meet();
}

int main(void)
{
    struct sigaction action = {.sa_handler = handle};
    sigaction(SIGUSR1, &action, NULL);
    run_threads(2, work);
    return 0;
}
