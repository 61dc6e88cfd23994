/* Locks have a name for their life: a new one after destroy and init, and after their memory was freed. */
#include "meet.h"

static pthread_mutex_t again;
static int first, second;

static void live(pthread_mutex_t *lock, int *variable)
{
    pthread_mutex_init(lock, NULL);
    pthread_mutex_lock(lock);
    (*variable)++;
    pthread_mutex_unlock(lock);
    pthread_mutex_destroy(lock);
}

int main(void)
{
    live(&again, &first);
    live(&again, &second);
    for (int i = 0; i < 2; i++) {
        pthread_mutex_t *made = malloc(sizeof *made);
        *made = (pthread_mutex_t)PTHREAD_MUTEX_INITIALIZER;
        pthread_mutex_lock(made);
        first++;
        pthread_mutex_unlock(made);
        free(made);
    }
    return 0;
}
