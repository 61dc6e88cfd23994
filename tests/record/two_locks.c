/* Each of two threads protects a variable, but by a lock of its own. */
#include "meet.h"

static int total, agreed;
static pthread_mutex_t first = PTHREAD_MUTEX_INITIALIZER, second = PTHREAD_MUTEX_INITIALIZER, both = PTHREAD_MUTEX_INITIALIZER;

static void work(int number)
{
    pthread_mutex_t *mine = number ? &first : &second;
    for (int i = 0; i < 3; i++) {
        meet();
        pthread_mutex_lock(mine);
        total++; /* RACE */
        pthread_mutex_lock(&both);
        agreed++;
        pthread_mutex_unlock(&both);
        pthread_mutex_unlock(mine);
    }
}

int main(void)
{
    run_threads(2, work);
    return 0;
}
