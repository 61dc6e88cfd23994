/* Locks that are released by a thread that does not hold them, or destroyed or freed while they are held. On a line with a mark stand the verb, the
 * lock and who holds it. */
#define _GNU_SOURCE
#include "../meet.h"

static pthread_mutex_t taken = PTHREAD_MUTEX_INITIALIZER, never = PTHREAD_MUTEX_INITIALIZER, checked, lost;
static pthread_rwlock_t table = PTHREAD_RWLOCK_INITIALIZER;
static pthread_spinlock_t spin;
static struct { long words[8]; pthread_mutex_t lock; } *owned, *own;

static void run(int number)
{
    if (number == 0) {
        pthread_mutex_lock(&taken);
        pthread_mutex_lock(&checked);
        pthread_mutex_lock(&lost);
        pthread_mutex_lock(&owned->lock);
        pthread_rwlock_rdlock(&table);
        pthread_spin_lock(&spin);
        next_turn();
        take_turn(2);
        pthread_mutex_unlock(&checked);
        pthread_mutex_unlock(&taken); /* MISUSE unlocks taken nobody */
    } else {
        take_turn(1);
        pthread_mutex_unlock(&taken); /* MISUSE unlocks taken another */
        pthread_mutex_unlock(&never); /* MISUSE unlocks never nobody */
        pthread_mutex_unlock(&checked); /* MISUSE unlocks checked another */
        pthread_rwlock_unlock(&table); /* MISUSE unlocks table another */
        pthread_spin_unlock(&spin); /* MISUSE unlocks spin another */
        pthread_mutex_destroy(&lost); /* MISUSE destroys lost another */
        free(owned); /* MISUSE frees mutex-1 another */
        next_turn();
    }
}

int main(void)
{
    pthread_mutexattr_t how;
    pthread_mutexattr_init(&how);
    pthread_mutexattr_settype(&how, PTHREAD_MUTEX_ERRORCHECK);
    pthread_mutex_init(&checked, &how);
    pthread_mutex_init(&lost, NULL);
    pthread_spin_init(&spin, PTHREAD_PROCESS_PRIVATE);
    owned = calloc(1, sizeof *owned);
    own = calloc(1, sizeof *own);
    run_threads(2, run);
    pthread_mutex_lock(&never);
    pthread_mutex_destroy(&never); /* MISUSE destroys never it */
    pthread_mutex_lock(&own->lock);
    free(own); /* MISUSE frees mutex-2 it */
    return 0;
}
