/* Threads that lock, one after the other: each does the same in every run. */
#include "../meet.h"

static pthread_mutex_t lock = PTHREAD_MUTEX_INITIALIZER;
static int word;

static void *work(void *nothing)
{
    for (int i = 0; i < 50; i++) {
        pthread_mutex_lock(&lock);
        word++;
        pthread_mutex_unlock(&lock);
    }
    return nothing;
}

int main(void)
{
    pthread_t thread;
    for (int i = 0; i < 3; i++) {
        pthread_create(&thread, NULL, work, NULL);
        pthread_join(thread, NULL);
    }
    return 0;
}
