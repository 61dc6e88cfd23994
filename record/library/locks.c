/* Locks of the C library. An acquire is recorded after it succeeded, a release before it happens, so that the events of a lock come in
 * the order in which it was held. Which of them are the outermost ones of a recursive lock, and what a lock is called, the writer finds
 * out: it sees all events in order, and this library keeps nothing for each lock. */
#include "emit.h"

#include <errno.h>
#include <pthread.h>
#include <sys/syscall.h>
#include <threads.h>
#include <time.h>
#include <unistd.h>

/* A mutex whose owner died is acquired, too. */
static bool is_acquired(int result)
{
    return result == 0 || result == EOWNERDEAD;
}

static void emit_lock(enum lock_kind kind, volatile void *lock, uint64_t site)
{
    emit(EVENT_LOCK, kind, (uintptr_t)lock, site);
}

static void emit_read_lock(enum lock_kind kind, volatile void *lock, uint64_t site)
{
    emit(EVENT_READ_LOCK, kind, (uintptr_t)lock, site);
}

static void emit_unlock(enum lock_kind kind, volatile void *lock, uint64_t site)
{
    emit(EVENT_UNLOCK, kind, (uintptr_t)lock, site);
}

static void emit_begin(volatile void *lock, uint64_t site)
{
    emit(EVENT_LOCK_BEGIN, 0, (uintptr_t)lock, site);
}

static void emit_end(volatile void *lock, uint64_t site)
{
    emit(EVENT_LOCK_END, 0, (uintptr_t)lock, site);
}

/* The forms in which a lock of one kind is acquired: NAME PARAMETERS calls the real one with ARGUMENTS. */
#define ACQUIRE(emit_it, kind, name, parameters, arguments)  \
    HOOK int name parameters                                 \
    {                                                        \
        shake();                                             \
        int result = REAL(name) arguments;                   \
        if (is_acquired(result))                             \
            emit_it(kind, lock, CALLER);                     \
        return result;                                       \
    }

/* The same, of calls that never wait. */
#define TRY(acquire, kind, name, type)                       \
    HOOK int name(type *lock)                                \
    {                                                        \
        shake();                                             \
        int result = REAL(name)(lock);                       \
        emit_try(acquire, kind, lock, is_acquired(result), CALLER); \
        return result;                                       \
    }

#define RELEASE(kind, name, type)                            \
    HOOK int name(type *lock)                                \
    {                                                        \
        emit_unlock(kind, lock, CALLER);                     \
        return REAL(name)(lock);                             \
    }

/* Before it happens, since the memory may be another lock's right after. The writer leaves a lock alone that is held, and can't be
 * destroyed. */
#define DESTROY(name, type)                                  \
    HOOK int name(type *lock)                                \
    {                                                        \
        emit_end(lock, CALLER);                              \
        return REAL(name)(lock);                             \
    }

#define INITIALISE(name, parameters, arguments)              \
    HOOK int name parameters                                 \
    {                                                        \
        int result = REAL(name) arguments;                   \
        if (result == 0)                                     \
            emit_begin(lock, CALLER);                        \
        return result;                                       \
    }

/* ---- Mutexes ---- */

typedef const struct timespec *until;

INITIALISE(pthread_mutex_init, (pthread_mutex_t *lock, const pthread_mutexattr_t *how), (lock, how))
DESTROY(pthread_mutex_destroy, pthread_mutex_t)
/* A thread that waits for a mutex which it holds, and which doesn't count, waits for ever. The C library notes who holds it. Mutexes that
 * processes share, and those that say so instead of waiting, are left out. */
static bool is_held_by_self(const pthread_mutex_t *lock)
{
    static __thread int thread __attribute__((tls_model("initial-exec")));
    int owner = __atomic_load_n(&lock->__data.__owner, __ATOMIC_RELAXED), kind = lock->__data.__kind & 255;
    if (!owner || (kind != PTHREAD_MUTEX_TIMED_NP && kind != PTHREAD_MUTEX_ADAPTIVE_NP))
        return false;
    if (!thread)
        thread = (int)syscall(SYS_gettid);
    return owner == thread;
}

static void emit_twice(void *lock, uint64_t site)
{
    if (UNLIKELY(is_recording()) && is_held_by_self(lock))
        emit(EVENT_LOCK_TWICE, LOCK_MUTEX, (uintptr_t)lock, site);
}

/* It waits as long as it takes. */
#define ACQUIRE_MUTEX(name, type)                            \
    HOOK int name(type *lock)                                \
    {                                                        \
        emit_twice(lock, CALLER);                            \
        shake();                                             \
        int result = REAL(name)(lock);                       \
        if (is_acquired(result))                             \
            emit_lock(LOCK_MUTEX, lock, CALLER);             \
        return result;                                       \
    }

ACQUIRE_MUTEX(pthread_mutex_lock, pthread_mutex_t)
TRY(EVENT_LOCK, LOCK_MUTEX, pthread_mutex_trylock, pthread_mutex_t)
ACQUIRE(emit_lock, LOCK_MUTEX, pthread_mutex_timedlock, (pthread_mutex_t *restrict lock, until restrict when), (lock, when))
ACQUIRE(emit_lock, LOCK_MUTEX, pthread_mutex_clocklock, (pthread_mutex_t *restrict lock, clockid_t clock, until restrict when), (lock, clock, when))
/* Of some kinds of mutexes a release fails if the lock is not held by its thread. Then its place among the events is drawn before it, and what it
 * was is known after it. It never waits, so nobody waits long for this event. */
static bool may_fail(const pthread_mutex_t *lock)
{
    int kind = lock->__data.__kind & 127;
    return kind != PTHREAD_MUTEX_TIMED_NP && kind != PTHREAD_MUTEX_ADAPTIVE_NP;
}

#define RELEASE_MUTEX(name, type)                            \
    HOOK int name(type *lock)                                \
    {                                                        \
        __typeof__(&name) release = REAL(name);              \
        struct draft draft;                                  \
        if (!is_recording() || !may_fail((const pthread_mutex_t *)lock)) { \
            emit_unlock(LOCK_MUTEX, lock, CALLER);           \
            return release(lock);                            \
        }                                                    \
        bool is_drawn = emit_draw(&draft);                   \
        int result = release(lock);                          \
        if (is_drawn)                                        \
            emit_publish(&draft, EVENT_UNLOCK, LOCK_MUTEX | (result == 0 ? 0 : LOCK_FAILED), (uintptr_t)lock, CALLER); \
        return result;                                       \
    }

RELEASE_MUTEX(pthread_mutex_unlock, pthread_mutex_t)

/* Older programs call the same functions by these names. */
HOOK int __pthread_mutex_lock(pthread_mutex_t *lock) { return pthread_mutex_lock(lock); }
HOOK int __pthread_mutex_trylock(pthread_mutex_t *lock) { return pthread_mutex_trylock(lock); }
HOOK int __pthread_mutex_unlock(pthread_mutex_t *lock) { return pthread_mutex_unlock(lock); }

/* ---- Reader-writer locks ---- */

INITIALISE(pthread_rwlock_init, (pthread_rwlock_t *restrict lock, const pthread_rwlockattr_t *restrict how), (lock, how))
DESTROY(pthread_rwlock_destroy, pthread_rwlock_t)
ACQUIRE(emit_read_lock, LOCK_RWLOCK, pthread_rwlock_rdlock, (pthread_rwlock_t *lock), (lock))
TRY(EVENT_READ_LOCK, LOCK_RWLOCK, pthread_rwlock_tryrdlock, pthread_rwlock_t)
ACQUIRE(emit_read_lock, LOCK_RWLOCK, pthread_rwlock_timedrdlock, (pthread_rwlock_t *restrict lock, until restrict when), (lock, when))
ACQUIRE(emit_read_lock, LOCK_RWLOCK, pthread_rwlock_clockrdlock, (pthread_rwlock_t *restrict lock, clockid_t clock, until restrict when), (lock, clock, when))
ACQUIRE(emit_lock, LOCK_RWLOCK, pthread_rwlock_wrlock, (pthread_rwlock_t *lock), (lock))
TRY(EVENT_LOCK, LOCK_RWLOCK, pthread_rwlock_trywrlock, pthread_rwlock_t)
ACQUIRE(emit_lock, LOCK_RWLOCK, pthread_rwlock_timedwrlock, (pthread_rwlock_t *restrict lock, until restrict when), (lock, when))
ACQUIRE(emit_lock, LOCK_RWLOCK, pthread_rwlock_clockwrlock, (pthread_rwlock_t *restrict lock, clockid_t clock, until restrict when), (lock, clock, when))
RELEASE(LOCK_RWLOCK, pthread_rwlock_unlock, pthread_rwlock_t)

/* ---- Spin locks ---- */

INITIALISE(pthread_spin_init, (pthread_spinlock_t *lock, int is_shared), (lock, is_shared))
DESTROY(pthread_spin_destroy, pthread_spinlock_t)
ACQUIRE(emit_lock, LOCK_SPIN, pthread_spin_lock, (pthread_spinlock_t *lock), (lock))
TRY(EVENT_LOCK, LOCK_SPIN, pthread_spin_trylock, pthread_spinlock_t)
RELEASE(LOCK_SPIN, pthread_spin_unlock, pthread_spinlock_t)

/* ---- Mutexes of C11 ---- */

/* They are the mutexes above. */
INITIALISE(mtx_init, (mtx_t *lock, int kind), (lock, kind))
ACQUIRE_MUTEX(mtx_lock, mtx_t)
TRY(EVENT_LOCK, LOCK_MUTEX, mtx_trylock, mtx_t)
ACQUIRE(emit_lock, LOCK_MUTEX, mtx_timedlock, (mtx_t *restrict lock, until restrict when), (lock, when))
RELEASE_MUTEX(mtx_unlock, mtx_t)

HOOK void mtx_destroy(mtx_t *lock)
{
    emit_end(lock, CALLER);
    REAL(mtx_destroy)(lock);
}

/* ---- Condition variables ---- */

/* A wait that is cancelled ends with the mutex held again, and its caller's clean-up runs under it. */
struct waiting { void *lock; uint64_t site; };

static void lock_after_cancel(void *waiting)
{
    const struct waiting *its = waiting;
    emit_lock(LOCK_MUTEX, its->lock, its->site);
}

#define WAIT(type, lock_type, name, parameters, arguments)   \
    HOOK int name parameters                                 \
    {                                                        \
        int result;                                          \
        struct waiting waiting = {lock, CALLER};             \
        emit_unlock(LOCK_MUTEX, lock, CALLER);               \
        pthread_cleanup_push(lock_after_cancel, &waiting);   \
        result = REAL(name) arguments;                       \
        pthread_cleanup_pop(0);                              \
        if (result == 0)                                     \
            emit_await(OBJECT_CONDITION, wakes, CALLER);     \
        emit_lock(LOCK_MUTEX, lock, CALLER);                 \
        return result;                                       \
    }

WAIT(pthread_cond_t, pthread_mutex_t, pthread_cond_wait, (pthread_cond_t *restrict wakes, pthread_mutex_t *restrict lock), (wakes, lock))
WAIT(pthread_cond_t, pthread_mutex_t, pthread_cond_timedwait, (pthread_cond_t *restrict wakes, pthread_mutex_t *restrict lock, until restrict when), (wakes, lock, when))
WAIT(pthread_cond_t, pthread_mutex_t, pthread_cond_clockwait, (pthread_cond_t *restrict wakes, pthread_mutex_t *restrict lock, clockid_t clock, until restrict when), (wakes, lock, clock, when))
WAIT(cnd_t, mtx_t, cnd_wait, (cnd_t *wakes, mtx_t *lock), (wakes, lock))
WAIT(cnd_t, mtx_t, cnd_timedwait, (cnd_t *restrict wakes, mtx_t *restrict lock, until restrict when), (wakes, lock, when))
