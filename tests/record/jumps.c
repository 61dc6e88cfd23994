/* A signal handler that leaves by longjmp whatever it interrupted, which may be the recorder. That event may be lost; nothing may hang. */
#include "meet.h"

#include <setjmp.h>
#include <signal.h>

#define SIGNALS 300
static int worked, bare;
static int is_there, is_over;
static pthread_t worker;
static sigjmp_buf back;

static void handle(int number)
{
    (void)number;
    siglongjmp(back, 1);
}

static void work(int number)
{
    if (number == 0)
        worker = pthread_self();
    if (number == 0 && sigsetjmp(back, 1) != 0)
        goto again;
    struct sigaction action = {.sa_handler = handle};
    sigaction(SIGUSR1, &action, NULL);
    meet();
    bare++; /* RACE */
    if (number == 1) {
        while (!__atomic_load_n(&is_there, __ATOMIC_SEQ_CST))
            sched_yield(); /* else the jump would leave the barrier */
        for (int i = 0; i < SIGNALS; i++) {
            sched_yield();
            pthread_kill(worker, SIGUSR1);
        }
        __atomic_store_n(&is_over, 1, __ATOMIC_SEQ_CST);
        return;
    }
again:
    __atomic_store_n(&is_there, 1, __ATOMIC_SEQ_CST);
    for (; !__atomic_load_n(&is_over, __ATOMIC_SEQ_CST); sched_yield())
        for (int i = 0; i < 20; i++)
            worked++;
}

int main(void)
{
    run_threads(2, work);
    return 0;
}
