// A table under a reader-writer lock. One line writes under the read lock.
#include "meet.h"

#include <mutex>
#include <shared_mutex>

static int table[4], hits;
static std::shared_mutex lock;
static pthread_rwlock_t other = PTHREAD_RWLOCK_INITIALIZER;

static void work(int number)
{
    meet();
    int sum = 0;
    for (int i = 0; i < 4; i++) {
        {
            std::unique_lock<std::shared_mutex> held(lock);
            table[i] += number;
        }
        std::shared_lock<std::shared_mutex> held(lock);
        sum += table[i];
        hits++; // RACE
    }
    pthread_rwlock_rdlock(&other);
    pthread_rwlock_rdlock(&other);
    sum += number;
    pthread_rwlock_unlock(&other);
    pthread_rwlock_unlock(&other);
    if (pthread_rwlock_trywrlock(&other) == 0)
        pthread_rwlock_unlock(&other);
    if (sum < 0)
        exit(1);
}

int main()
{
    run_threads(3, work);
}
