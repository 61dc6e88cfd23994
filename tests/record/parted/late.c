/* For LD_PRELOAD behind the recorder: a thread that is to be late waits until another lets it go on, in the C++ library at the end of its handler, or in the C
 * library once a barrier has let it go. */
#define _GNU_SOURCE
#include <dlfcn.h>
#include <pthread.h>
#include <sched.h>

static __thread int is_late;
static int has_come, may_go;

void be_late(void);
void be_late(void)
{
    is_late = 1;
}

void wait_for_late(void);
void wait_for_late(void)
{
    while (!__atomic_load_n(&has_come, __ATOMIC_ACQUIRE))
        sched_yield();
}

void let_late_go(void);
void let_late_go(void)
{
    __atomic_store_n(&may_go, 1, __ATOMIC_RELEASE);
}

static void wait_if_late(void)
{
    if (!is_late)
        return;
    is_late = 0;
    __atomic_store_n(&has_come, 1, __ATOMIC_RELEASE);
    while (!__atomic_load_n(&may_go, __ATOMIC_ACQUIRE))
        sched_yield();
}

void __cxa_end_catch(void);
void __cxa_end_catch(void)
{
    wait_if_late();
    ((void (*)(void))dlsym(RTLD_NEXT, "__cxa_end_catch"))();
}

int pthread_barrier_wait(pthread_barrier_t *barrier)
{
    int result = ((int (*)(pthread_barrier_t *))dlsym(RTLD_NEXT, "pthread_barrier_wait"))(barrier);
    wait_if_late();
    return result;
}
