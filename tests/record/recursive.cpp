// Recursive mutexes: what is written after the inner release is still protected.
#include "meet.h"

#include <mutex>

static std::recursive_mutex outer;
static pthread_mutex_t plain;
static int nested, other;

static void work(int)
{
    meet();
    for (int i = 0; i < 5; i++) {
        outer.lock();
        outer.lock();
        nested++;
        outer.unlock();
        nested++;
        outer.unlock();
        pthread_mutex_lock(&plain);
        if (pthread_mutex_trylock(&plain) != 0)
            exit(1);
        other++;
        pthread_mutex_unlock(&plain);
        other++;
        pthread_mutex_unlock(&plain);
    }
}

int main()
{
    pthread_mutexattr_t how;
    pthread_mutexattr_init(&how);
    pthread_mutexattr_settype(&how, PTHREAD_MUTEX_RECURSIVE);
    pthread_mutex_init(&plain, &how);
    run_threads(2, work);
}
