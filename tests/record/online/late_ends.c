/* Accesses of a destructor that the C library calls in its third round, when the thread counts as ended. */
#include "../meet.h"

static pthread_key_t key;
static int bare;
static __thread int rounds;

static void end(void *given)
{
    if (++rounds < 3)
        pthread_setspecific(key, given);
    else
        bare++;
}

static void *work(void *nothing)
{
    pthread_setspecific(key, &bare);
    return nothing;
}

int main(void)
{
    pthread_t thread;
    pthread_key_create(&key, end);
    for (int i = 0; i < 2; i++) {
        if (pthread_create(&thread, NULL, work, NULL) != 0)
            exit(99);
        pthread_join(thread, NULL);
    }
    return 0;
}
