/* What host.c loads: threads with a counter under a lock, and one without. */
#include "../meet.h"

static pthread_mutex_t lock = PTHREAD_MUTEX_INITIALIZER;
static int bare, protected;

static void work(int number)
{
    (void)number;
    meet();
    bare++; /* RACE */
    for (int i = 0; i < 100; i++) {
        pthread_mutex_lock(&lock);
        protected++;
        pthread_mutex_unlock(&lock);
    }
}

int run(void);
int run(void)
{
    run_threads(2, work);
    return bare > 2;
}
