/* A counter that nobody protects, beside one that a mutex protects. */
#include "meet.h"

static int bare, guarded;
static pthread_mutex_t lock = PTHREAD_MUTEX_INITIALIZER;

static void work(int number)
{
    (void)number;
    meet();
    for (int i = 0; i < 10; i++) {
        bare++; /* RACE */
        pthread_mutex_lock(&lock);
        guarded++;
        pthread_mutex_unlock(&lock);
    }
}

int main(void)
{
    run_threads(3, work);
    pthread_mutex_lock(&lock);
    printf("%d\n", guarded);
    pthread_mutex_unlock(&lock);
    return 3; /* the exit status is passed on */
}
