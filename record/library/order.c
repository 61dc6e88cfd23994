/* What orders threads beside locks: semaphores, barriers, condition variables, what is done once. Each is an object that threads signal
 * and await. Without `record/run --order` these functions only call the real ones. */
#include "emit.h"

#include <limits.h>
#include <linux/futex.h>
#include <pthread.h>
#include <semaphore.h>
#include <sys/syscall.h>
#include <threads.h>
#include <time.h>
#include <unistd.h>

typedef const struct timespec *until;

/* Before the real function, since who is woken up may record its await before this thread goes on. The functions of condition variables
 * don't fail. */
#define SIGNAL(kind, type, name)                             \
    HOOK int name(type *object)                              \
    {                                                        \
        shake();                                             \
        emit_signal(kind, object, CALLER);                   \
        return REAL(name)(object);                           \
    }

/* After the real function, if it succeeded. */
#define AWAIT(kind, name, parameters, arguments)             \
    HOOK int name parameters                                 \
    {                                                        \
        shake();                                             \
        int result = REAL(name) arguments;                   \
        if (result == 0)                                     \
            emit_await(kind, object, CALLER);                \
        return result;                                       \
    }

#define INITIALISE(name, parameters, arguments)              \
    HOOK int name parameters                                 \
    {                                                        \
        int result = REAL(name) arguments;                   \
        if (result == 0)                                     \
            emit_object_begin(object);                       \
        return result;                                       \
    }

/* After the real function: it waits until the threads that were let go have left. */
#define DESTROY(type, name)                                  \
    HOOK int name(type *object)                              \
    {                                                        \
        int result = REAL(name)(object);                     \
        if (result == 0)                                     \
            emit_object_end(object);                         \
        return result;                                       \
    }

/* ---- Semaphores ---- */

INITIALISE(sem_init, (sem_t *object, int is_shared, unsigned value), (object, is_shared, value))
DESTROY(sem_t, sem_destroy)
AWAIT(OBJECT_SEMAPHORE, sem_wait, (sem_t *object), (object))
AWAIT(OBJECT_SEMAPHORE, sem_trywait, (sem_t *object), (object))
AWAIT(OBJECT_SEMAPHORE, sem_timedwait, (sem_t *restrict object, until restrict when), (object, when))
AWAIT(OBJECT_SEMAPHORE, sem_clockwait, (sem_t *restrict object, clockid_t clock, until restrict when), (object, clock, when))

FIND_EARLY(sem_post)

/* A post fails if the semaphore's value is at its greatest. So its place among the events is drawn before it, and it is a signal only if
 * it succeeded. It never waits, so nobody waits long for this event. */
HOOK int sem_post(sem_t *object)
{
    int (*post)(sem_t *) = find_sem_post();
    struct draft draft;
    shake();
    bool is_drawn = is_ordering() && emit_draw(&draft);
    int result = post(object);
    if (is_drawn)
        emit_publish(&draft, result == 0 ? EVENT_SIGNAL : EVENT_VOID, OBJECT_SEMAPHORE, (uintptr_t)object, CALLER);
    return result;
}

/* ---- Barriers ---- */

/* At a barrier that processes share, threads arrive of which nothing is recorded. */
HOOK int pthread_barrier_init(pthread_barrier_t *restrict object, const pthread_barrierattr_t *restrict how, unsigned count)
{
    int result = REAL(pthread_barrier_init)(object, how, count), shared = PTHREAD_PROCESS_PRIVATE;
    if (result == 0 && is_ordering()) {
        if (how)
            pthread_barrierattr_getpshared(how, &shared);
        emit(EVENT_BARRIER, 0, (uintptr_t)object, shared == PTHREAD_PROCESS_PRIVATE ? count : 0);
    }
    return result;
}

HOOK int pthread_barrier_wait(pthread_barrier_t *object)
{
    shake();
    emit_signal(OBJECT_BARRIER, object, CALLER);
    int result = REAL(pthread_barrier_wait)(object);
    if (result == 0 || result == PTHREAD_BARRIER_SERIAL_THREAD)
        emit_await(OBJECT_BARRIER, object, CALLER);
    return result;
}

DESTROY(pthread_barrier_t, pthread_barrier_destroy)

/* ---- Condition variables, of which locks.c has the waits ---- */

INITIALISE(pthread_cond_init, (pthread_cond_t *restrict object, const pthread_condattr_t *restrict how), (object, how))
SIGNAL(OBJECT_CONDITION, pthread_cond_t, pthread_cond_signal)
SIGNAL(OBJECT_CONDITION, pthread_cond_t, pthread_cond_broadcast)
INITIALISE(cnd_init, (cnd_t *object), (object))
SIGNAL(OBJECT_CONDITION, cnd_t, cnd_signal)
SIGNAL(OBJECT_CONDITION, cnd_t, cnd_broadcast)

/* The C library has two versions of it, as of those in forward.c. */
DESTROY(pthread_cond_t, pthread_cond_destroy)

HOOK void cnd_destroy(cnd_t *object)
{
    REAL(cnd_destroy)(object);
    emit_object_end(object);
}

/* ---- What is done once ---- */

/* What this thread is to do once. The real functions pass nothing on to it. A signal handler may come before it is done, and do something
 * else once: it puts back what it found. */
struct once {
    void (*body)(void);
    void *object;
    uint64_t site;
};
static __thread struct once once __attribute__((tls_model("initial-exec")));

static void signal_once(void *done)
{
    const struct once *its = done;
    emit_signal(OBJECT_ONCE, its->object, its->site);
}

/* The body may do something else once. It may end by an exception, and then the next thread that comes does it again, and comes after. */
static void run_once(void)
{
    struct once now = once;
    emit_await(OBJECT_ONCE, now.object, now.site);
    pthread_cleanup_push(signal_once, &now);
    now.body();
    pthread_cleanup_pop(1);
}

HOOK int pthread_once(pthread_once_t *object, void (*body)(void))
{
    if (!is_ordering())
        return REAL(pthread_once)(object, body);
    struct once outer = once;
    once = (struct once){body, object, CALLER};
    int result = REAL(pthread_once)(object, run_once);
    once = outer;
    if (result == 0)
        emit_await(OBJECT_ONCE, object, CALLER);
    return result;
}

HOOK void call_once(once_flag *object, void (*body)(void))
{
    if (!is_ordering()) {
        REAL(call_once)(object, body);
        return;
    }
    struct once outer = once;
    once = (struct once){body, object, CALLER};
    REAL(call_once)(object, run_once);
    once = outer;
    emit_await(OBJECT_ONCE, object, CALLER);
}

/* Static variables of C++ functions. The compiler's own code looks at the first byte of the guard by an atomic load. */
int __cxa_guard_acquire(void *object);
void __cxa_guard_release(void *object);
void __cxa_guard_abort(void *object);

/* Where the C++ library is in no file of its own, the program has none of the three. The first byte of a guard says that the variable is made, and the
 * second one that a thread makes it. */
#define GUARD_MADE 1u
#define GUARD_TAKEN 256u

static int take_guard(void *object)
{
    uint32_t found = 0;
    while (!atomic_compare_exchange_strong((_Atomic uint32_t *)object, &found, GUARD_TAKEN)) {
        if (found == GUARD_MADE)
            return 0;
        syscall(SYS_futex, object, FUTEX_WAIT_PRIVATE, found, NULL, NULL, 0);
        found = 0;
    }
    return 1;
}

static void leave_guard(void *object, uint32_t state)
{
    atomic_store((_Atomic uint32_t *)object, state);
    syscall(SYS_futex, object, FUTEX_WAKE_PRIVATE, INT_MAX, NULL, NULL, 0);
}

HOOK int __cxa_guard_acquire(void *object)
{
    __typeof__(&__cxa_guard_acquire) next = NEXT(__cxa_guard_acquire);
    int is_first = next ? next(object) : take_guard(object);
    emit_await(OBJECT_ONCE, object, CALLER);
    return is_first;
}

/* If it ends by an exception, the next thread that comes makes the variable. */
#define LEAVE_GUARD(name, state)                             \
    HOOK void name(void *object)                             \
    {                                                        \
        __typeof__(&name) next = NEXT(name);                 \
        emit_signal(OBJECT_ONCE, object, CALLER);            \
        if (next)                                            \
            next(object);                                    \
        else                                                 \
            leave_guard(object, state);                      \
    }

LEAVE_GUARD(__cxa_guard_release, GUARD_MADE)
LEAVE_GUARD(__cxa_guard_abort, 0)
