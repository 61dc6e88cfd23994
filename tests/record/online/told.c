/* Two threads, one after the other, of which both have names: what a report says of the second one's access. */
#define _GNU_SOURCE
#include "../meet.h"

static pthread_mutex_t inner = PTHREAD_MUTEX_INITIALIZER;
static pthread_rwlock_t table = PTHREAD_RWLOCK_INITIALIZER, rows[2] = {PTHREAD_RWLOCK_INITIALIZER, PTHREAD_RWLOCK_INITIALIZER};
static long shared;

static void set(long value)
{
    shared = value; /* RACE */
}

static void take_row(void)
{
    pthread_rwlock_rdlock(&rows[1]); /* @row */
}

static void *first(void *nothing)
{
    pthread_setname_np(pthread_self(), "first");
    pthread_mutex_lock(&inner);
    set(1);
    pthread_mutex_unlock(&inner);
    return nothing;
}

/* A lock that is held to read doesn't protect a write. */
static void *second(void *nothing)
{
    pthread_setname_np(pthread_self(), "second");
    pthread_rwlock_rdlock(&table); /* @table */
    take_row();
    set(2); /* @set */
    pthread_rwlock_unlock(&rows[1]);
    pthread_rwlock_unlock(&table);
    return nothing;
}

int main(void)
{
    pthread_t thread;
    pthread_create(&thread, NULL, first, NULL);
    pthread_join(thread, NULL);
    pthread_create(&thread, NULL, second, NULL);
    pthread_join(thread, NULL);
    return 0;
}
