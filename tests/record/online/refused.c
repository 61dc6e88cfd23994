/* A thread takes more locks to read than the detector has room for. The last one is held to read by another thread as well, and goes on to be. */
#include "../meet.h"

#define LOCKS 65

static pthread_rwlock_t locks[LOCKS];
static int value;

static void work(int number)
{
    if (number == 0) {
        pthread_rwlock_rdlock(&locks[LOCKS - 1]);
        next_turn();
        take_turn(2);
        printf("%d\n", value);
        pthread_rwlock_unlock(&locks[LOCKS - 1]);
        next_turn();
    } else {
        take_turn(1);
        for (int at = 0; at < LOCKS; at++)
            pthread_rwlock_rdlock(&locks[at]);
        for (int at = LOCKS; at > 0; at--)
            pthread_rwlock_unlock(&locks[at - 1]);
        next_turn();
        take_turn(3);
        pthread_rwlock_wrlock(&locks[LOCKS - 1]);
        value = 2;
        pthread_rwlock_unlock(&locks[LOCKS - 1]);
    }
}

int main(void)
{
    for (int at = 0; at < LOCKS; at++)
        pthread_rwlock_init(&locks[at], NULL);
    pthread_rwlock_wrlock(&locks[LOCKS - 1]);
    value = 1;
    pthread_rwlock_unlock(&locks[LOCKS - 1]);
    run_threads(2, work);
    return 0;
}
