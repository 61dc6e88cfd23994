/* Uses of locks that look strange, and are right. Nothing is said of any. */
#define _GNU_SOURCE
#include "../../../record/eraser.h"
#include "../meet.h"

#include <errno.h>
#include <semaphore.h>
#include <stdbool.h>
#include <stdlib.h>
#include <sys/mman.h>
#include <sys/wait.h>
#include <threads.h>
#include <unistd.h>

static pthread_mutex_t plain = PTHREAD_MUTEX_INITIALIZER, kept = PTHREAD_MUTEX_INITIALIZER, counting, checked, robust, adaptive;
static pthread_cond_t changed = PTHREAD_COND_INITIALIZER;
static pthread_rwlock_t table = PTHREAD_RWLOCK_INITIALIZER;
static mtx_t timed;
static sem_t own;
static bool is_ready;

static void make(pthread_mutex_t *lock, int kind, int robustness)
{
    pthread_mutexattr_t how;
    pthread_mutexattr_init(&how);
    pthread_mutexattr_settype(&how, kind);
    pthread_mutexattr_setrobust(&how, robustness);
    pthread_mutex_init(lock, &how);
}

static void *end_with_lock(void *lock)
{
    pthread_mutex_lock(lock);
    return NULL;
}

static void dead_owner(void)
{
    pthread_t thread;
    pthread_create(&thread, NULL, end_with_lock, &robust);
    pthread_join(thread, NULL);
    if (pthread_mutex_lock(&robust) == EOWNERDEAD)
        pthread_mutex_consistent(&robust);
    pthread_mutex_unlock(&robust);
    pthread_mutex_destroy(&robust);
}

static void by_one_thread(void)
{
    struct timespec past = {1, 0}, later = soon(CLOCK_REALTIME, 999);
    pthread_mutex_lock(&counting);
    pthread_mutex_lock(&counting);
    pthread_mutex_trylock(&counting);
    for (int i = 0; i < 3; i++)
        pthread_mutex_unlock(&counting);
    pthread_mutex_lock(&checked);
    if (pthread_mutex_lock(&checked) != EDEADLK)
        abort();
    pthread_mutex_unlock(&checked);
    pthread_mutex_lock(&plain);
    if (pthread_mutex_trylock(&plain) != EBUSY || pthread_mutex_timedlock(&plain, &past) != ETIMEDOUT)
        abort();
    pthread_cond_timedwait(&changed, &plain, &past);
    pthread_mutex_unlock(&plain);
    pthread_mutex_timedlock(&adaptive, &later);
    pthread_mutex_unlock(&adaptive);
    pthread_rwlock_rdlock(&table);
    pthread_rwlock_rdlock(&table);
    if (pthread_rwlock_trywrlock(&table) != EBUSY)
        abort();
    pthread_rwlock_unlock(&table);
    pthread_rwlock_unlock(&table);
    pthread_rwlock_wrlock(&table);
    pthread_rwlock_unlock(&table);
    mtx_timedlock(&timed, &later);
    mtx_unlock(&timed);
    mtx_destroy(&timed);
}

/* Memory gets a new use while a lock in it is held. */
static void reused(void)
{
    struct { pthread_mutex_t lock; long words[4]; } *object = calloc(1, sizeof *object);
    pthread_mutex_init(&object->lock, NULL);
    pthread_mutex_lock(&object->lock);
    ERASER_REUSE(object, sizeof *object);
    object->words[0] = 1;
    pthread_mutex_unlock(&object->lock);
    pthread_mutex_lock(&object->lock);
    pthread_mutex_unlock(&object->lock);
    pthread_mutex_destroy(&object->lock);
    free(object);
}

static void lock_kept(void) { pthread_mutex_lock(&kept); }
static void unlock_kept(void) { pthread_mutex_unlock(&kept); }

/* A lock of the program's own that another thread releases, and waits for a condition. */
static void run(int number)
{
    if (number == 0) {
        sem_wait(&own);
        ERASER_WRITE_LOCK(&own);
        next_turn();
        pthread_mutex_lock(&plain);
        while (!is_ready)
            pthread_cond_wait(&changed, &plain);
        pthread_mutex_unlock(&plain);
    } else {
        take_turn(1);
        ERASER_WRITE_UNLOCK(&own);
        sem_post(&own);
        pthread_mutex_lock(&plain);
        is_ready = true;
        pthread_cond_broadcast(&changed);
        pthread_mutex_unlock(&plain);
    }
}

int main(void)
{
    make(&counting, PTHREAD_MUTEX_RECURSIVE, PTHREAD_MUTEX_STALLED);
    make(&checked, PTHREAD_MUTEX_ERRORCHECK, PTHREAD_MUTEX_STALLED);
    make(&adaptive, PTHREAD_MUTEX_ADAPTIVE_NP, PTHREAD_MUTEX_STALLED);
    make(&robust, PTHREAD_MUTEX_NORMAL, PTHREAD_MUTEX_ROBUST);
    mtx_init(&timed, mtx_timed);
    sem_init(&own, 0, 1);
    dead_owner();
    by_one_thread();
    reused();
    pthread_atfork(lock_kept, unlock_kept, unlock_kept);
    pid_t child = fork();
    if (child == 0)
        _exit(0);
    waitpid(child, NULL, 0);
    run_threads(2, run);
    pthread_mutex_destroy(&counting);
    pthread_mutex_destroy(&checked);
    /* What is held at the end is nobody's concern. */
    pthread_mutex_lock(&kept);
    return 0;
}
