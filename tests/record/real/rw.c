/* A table under a reader-writer lock. A counter is written while the lock is held to read, a slot is used without the lock, and freed while
 * it may be in use, and a payload is handed over by a flag that orders nothing. */
#define _GNU_SOURCE
#include <pthread.h>
#include <sched.h>
#include <stdatomic.h>
#include <stdio.h>
#include <stdlib.h>

/* So long that the allocator's notes in a freed block lie before `uses`. */
struct slot { long value, more[2]; int uses; };

static pthread_rwlock_t table_lock = PTHREAD_RWLOCK_INITIALIZER;
static struct slot *slots[4];
static long generation;
static atomic_int is_ready, sum;
static int payload;

static void *read_table(void *nothing)
{
    for (int i = 0; i < 100; i++) {
        pthread_rwlock_rdlock(&table_lock);
        struct slot *slot = slots[i % 4];
        generation++; /* RACE generation */
        pthread_rwlock_unlock(&table_lock);
        slot->uses++; /* RACE uses */
    }
    while (!atomic_load_explicit(&is_ready, memory_order_relaxed))
        sched_yield();
    atomic_fetch_add_explicit(&sum, payload, memory_order_relaxed); /* RACE payload */
    return nothing;
}

static void *change_table(void *nothing)
{
    payload = 7; /* RACE payload */
    atomic_store_explicit(&is_ready, 1, memory_order_relaxed);
    for (int i = 0; i < 100; i++) {
        struct slot *fresh = calloc(1, sizeof *fresh);
        fresh->value = i;
        pthread_rwlock_wrlock(&table_lock);
        struct slot *old = slots[i % 4];
        slots[i % 4] = fresh;
        pthread_rwlock_unlock(&table_lock);
        if (old->uses >= 0) /* RACE uses */
            free(old); /* RACE freed */
    }
    return nothing;
}

int main(void)
{
    pthread_t threads[3];
    for (int i = 0; i < 4; i++)
        slots[i] = calloc(1, sizeof **slots);
    for (int i = 0; i < 3; i++)
        pthread_create(&threads[i], NULL, i == 2 ? change_table : read_table, NULL);
    for (int i = 0; i < 3; i++)
        pthread_join(threads[i], NULL);
    puts("read");
    return 0;
}
