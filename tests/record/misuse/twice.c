/* A thread waits for a mutex that it holds, and so for ever. */
#define _GNU_SOURCE
#include <pthread.h>
#include <sched.h>
#include <unistd.h>

static pthread_mutex_t lock = PTHREAD_MUTEX_INITIALIZER;

static void *run(void *nothing)
{
    pthread_mutex_lock(&lock);
    pthread_mutex_lock(&lock); /* MISUSE locks lock it */
    return nothing;
}

int main(void)
{
    pthread_t thread;
    pthread_create(&thread, NULL, run, NULL);
    /* The C library writes 2 when somebody waits. */
    while (__atomic_load_n(&lock.__data.__lock, __ATOMIC_RELAXED) != 2)
        sched_yield();
    _exit(0);
}
