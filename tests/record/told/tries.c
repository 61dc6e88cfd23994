/* Tries and atomic operations that order nothing, one after the other. A trace with --flow has these beside what a text has, by the marks of their lines,
 * and no other:
 * EVENT try try_mutex mutex
 * EVENT try-read try_read table
 * EVENT try try_write table
 * EVENT try try_spin spin
 * EVENT try try_c11 c11
 * EVENT failed-try fail_mutex mutex
 * EVENT failed-try-read fail_read table
 * EVENT failed-try fail_write table
 * EVENT failed-try fail_spin spin
 * EVENT failed-try fail_c11 c11
 * EVENT stores store flag
 * EVENT loads load flag
 * EVENT loads acquire flag
 * EVENT stores change count
 * EVENT loads change count
 * EVENT stores half half
 * EVENT loads half half
 * EVENT stores again released
 *
 * Two threads are created on the line @create. The static variable of `run` is runs by gcc, and run::runs by clang.
 */
#include <stdio.h>
#include <threads.h>

#include "../stacks/marks.h"

static pthread_mutex_t mutex = PTHREAD_MUTEX_INITIALIZER;
static pthread_rwlock_t table = PTHREAD_RWLOCK_INITIALIZER;
static pthread_spinlock_t spin;
static mtx_t c11;
static int flag, count, half, released;

/* What another thread holds, or has stored. A second try in vain and a second load of the same tell nothing new. */
static void *fails(void *nothing)
{
    for (int i = 0; i < 3; i++)
        pthread_mutex_trylock(&mutex); /* @fail_mutex */
    pthread_rwlock_tryrdlock(&table); /* @fail_read */
    pthread_rwlock_trywrlock(&table); /* @fail_write */
    pthread_spin_trylock(&spin); /* @fail_spin */
    mtx_trylock(&c11); /* @fail_c11 */
    for (int i = 0; i < 3; i++)
        __atomic_load_n(&flag, __ATOMIC_RELAXED); /* @load */
    return nothing;
}

/* Nobody has signalled it. */
static void *acquires(void *nothing)
{
    __atomic_load_n(&flag, __ATOMIC_ACQUIRE); /* @acquire */
    return nothing;
}

static void run(void *(*body)(void *))
{
    static int runs;
    pthread_t thread;
    runs++;
    pthread_create(&thread, NULL, body, NULL); /* @create */
    pthread_join(thread, NULL);
}

int main(void)
{
    int other = 7;
    pthread_spin_init(&spin, PTHREAD_PROCESS_PRIVATE);
    mtx_init(&c11, mtx_plain);
    pthread_mutex_trylock(&mutex); /* @try_mutex */
    pthread_rwlock_tryrdlock(&table); /* @try_read */
    pthread_rwlock_unlock(&table);
    pthread_rwlock_trywrlock(&table); /* @try_write */
    pthread_spin_trylock(&spin); /* @try_spin */
    mtx_trylock(&c11); /* @try_c11 */
    __atomic_store_n(&flag, 1, __ATOMIC_RELAXED); /* @store */
    run(fails);
    run(acquires);
    __atomic_fetch_add(&count, 1, __ATOMIC_RELAXED); /* @change */
    __atomic_compare_exchange_n(&count, &other, 2, 0, __ATOMIC_SEQ_CST, __ATOMIC_RELAXED); /* it fails, and loads its own store */
    __atomic_fetch_add(&half, 1, __ATOMIC_ACQUIRE); /* @half */
    __atomic_load_n(&half, __ATOMIC_RELAXED);
    __atomic_store_n(&released, 1, __ATOMIC_RELEASE);
    __atomic_store_n(&released, 2, __ATOMIC_RELEASE); /* @again */
    puts("done");
    return released - 2 + shared;
}
