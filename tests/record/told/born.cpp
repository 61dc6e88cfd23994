/* Locks, one after the other, each of which is acquired. A trace says where the life of each began, by the marks of their lines and of the calls around
 * them: with a call that created it, or else with the first one that acquired it.
 * LOCK created made make main-make
 * LOCK created made:2 make main-again
 * LOCK created table table main-make
 * LOCK taken fixed take main-take
 * LOCK created mutex-1 construct first
 * LOCK created mutex-2 construct second
 * LOCK taken mutex-3 guard
 *
 * mutex-2 lies where mutex-1 did.
 */
#include <memory>
#include <mutex>

#include "../stacks/marks.h"

static pthread_mutex_t made, unused, fixed = PTHREAD_MUTEX_INITIALIZER;
static pthread_rwlock_t table;

struct Box {
    pthread_mutex_t lock;
    APART Box() {
        pthread_mutex_init(&lock, nullptr); /* @construct */
    }
};

struct Pool {
    std::mutex lock;
    int count = 0;
};

APART static void make() {
    pthread_mutex_init(&made, nullptr); /* @make */
    pthread_rwlock_init(&table, nullptr); /* @table */
    pthread_mutex_init(&unused, nullptr);
}

APART static void take(pthread_mutex_t *lock) {
    pthread_mutex_lock(lock); /* @take */
    shared++;
    pthread_mutex_unlock(lock);
}

int main() {
    make(); /* @main-make */
    take(&made);
    take(&fixed); /* @main-take */
    take(&fixed);
    pthread_rwlock_wrlock(&table);
    pthread_rwlock_unlock(&table);
    pthread_mutex_destroy(&made);
    make(); /* @main-again */
    take(&made);
    auto *box = new Box(); /* @first */
    take(&box->lock);
    delete box;
    box = new Box(); /* @second */
    take(&box->lock);
    delete box;
    auto pool = std::make_unique<Pool>();
    std::lock_guard<std::mutex> guard(pool->lock); /* @guard */
    pool->count++;
}
