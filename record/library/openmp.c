/* OpenMP as gcc has it: libgomp is not instrumented, and its threads wait for each other by futexes of its own. A region begins and ends with an object
 * that its threads signal and await, and so does each of its barriers. Critical sections and OpenMP's locks are locks. */
#include "emit.h"

/* ---- Regions ---- */

/* What a region does, and its objects: each is a place in it. It lies on the stack of the thread that begins it and waits for its end. */
struct region {
    void (*body)(void *);
    void *data;
    char begins, ends, ordered;
    char rounds[2]; /* of its barriers, in turn: nobody comes to a round before all have left the one before the last */
    uint64_t site; /* where it is begun */
};

/* The region of this thread, and how many of its barriers the thread has left. */
struct place {
    struct region *region;
    unsigned round;
};
static __thread struct place here __attribute__((tls_model("initial-exec")));

static void begin_region(struct region *region)
{
    emit_object_begin(&region->begins);
    emit_object_begin(&region->ends);
    emit_object_begin(&region->ordered);
    emit_object_begin(&region->rounds[0]);
    emit_object_begin(&region->rounds[1]);
    emit_signal(OBJECT_REGION, &region->begins, region->site);
}

static void end_region(struct region *region)
{
    emit_await(OBJECT_REGION, &region->ends, region->site);
    emit_object_end(&region->begins);
    emit_object_end(&region->ends);
    emit_object_end(&region->ordered);
    emit_object_end(&region->rounds[0]);
    emit_object_end(&region->rounds[1]);
}

/* What each thread of a region does, also the one that begins it. */
static void run_region(void *given)
{
    struct region *region = given;
    struct place outer = here;
    here = (struct place){region, 0};
    shake();
    emit_await(OBJECT_REGION, &region->begins, region->site);
    region->body(region->data);
    emit_signal(OBJECT_REGION, &region->ends, region->site);
    here = outer;
}

#define PARALLEL(type, name, parameters, ...)                \
    type name parameters;                                    \
    HOOK type name parameters                                \
    {                                                        \
        __typeof__(&name) real = REAL(name);                 \
        struct region region = {body, data, 0, 0, 0, {0, 0}, CALLER}; \
        if (!attached->notes_atomics)                        \
            return real(body, data, __VA_ARGS__);            \
        begin_region(&region);                               \
        RETURN_##type(real(run_region, &region, __VA_ARGS__)) \
    }
#define RETURN_void(call)                                    \
    call;                                                    \
    end_region(&region);
#define RETURN_unsigned(call)                                \
    unsigned result = call;                                  \
    end_region(&region);                                     \
    return result;

#define LOOP(name) PARALLEL(void, name, (void (*body)(void *), void *data, unsigned threads, long first, long end, long step, long chunk, unsigned flags), threads, first, end, step, chunk, flags)
#define RUNTIME_LOOP(name) PARALLEL(void, name, (void (*body)(void *), void *data, unsigned threads, long first, long end, long step, unsigned flags), threads, first, end, step, flags)

PARALLEL(void, GOMP_parallel, (void (*body)(void *), void *data, unsigned threads, unsigned flags), threads, flags)
PARALLEL(unsigned, GOMP_parallel_reductions, (void (*body)(void *), void *data, unsigned threads, unsigned flags), threads, flags)
PARALLEL(void, GOMP_parallel_sections, (void (*body)(void *), void *data, unsigned threads, unsigned count, unsigned flags), threads, count, flags)
LOOP(GOMP_parallel_loop_static)
LOOP(GOMP_parallel_loop_dynamic)
LOOP(GOMP_parallel_loop_guided)
LOOP(GOMP_parallel_loop_nonmonotonic_dynamic)
LOOP(GOMP_parallel_loop_nonmonotonic_guided)
RUNTIME_LOOP(GOMP_parallel_loop_runtime)
RUNTIME_LOOP(GOMP_parallel_loop_nonmonotonic_runtime)
RUNTIME_LOOP(GOMP_parallel_loop_maybe_nonmonotonic_runtime)

/* ---- Barriers, also those at the end of what the threads of a region share ---- */

static void arrive(uint64_t site)
{
    shake();
    if (here.region)
        emit_signal(OBJECT_BARRIER, &here.region->rounds[here.round % 2], site);
}

static void leave(uint64_t site)
{
    if (here.region)
        emit_await(OBJECT_BARRIER, &here.region->rounds[here.round++ % 2], site);
}

#define BARRIER(name)                                        \
    void name(void);                                         \
    HOOK void name(void)                                     \
    {                                                        \
        arrive(CALLER);                                      \
        REAL(name)();                                        \
        leave(CALLER);                                       \
    }

/* It says whether the region is cancelled. */
#define CANCELLED_BARRIER(name)                              \
    bool name(void);                                         \
    HOOK bool name(void)                                     \
    {                                                        \
        arrive(CALLER);                                      \
        bool result = REAL(name)();                          \
        leave(CALLER);                                       \
        return result;                                       \
    }

BARRIER(GOMP_barrier)
BARRIER(GOMP_loop_end)
BARRIER(GOMP_sections_end)
CANCELLED_BARRIER(GOMP_barrier_cancel)
CANCELLED_BARRIER(GOMP_loop_end_cancel)
CANCELLED_BARRIER(GOMP_sections_end_cancel)

/* One thread gets NULL, makes what the others copy, and comes to the barrier at its end. The others wait there. */
void *GOMP_single_copy_start(void);
void GOMP_single_copy_end(void *data);

HOOK void *GOMP_single_copy_start(void)
{
    arrive(CALLER);
    void *data = REAL(GOMP_single_copy_start)();
    if (data)
        leave(CALLER);
    return data;
}

HOOK void GOMP_single_copy_end(void *data)
{
    arrive(CALLER);
    REAL(GOMP_single_copy_end)(data);
    leave(CALLER);
}

/* ---- What is done in the order of a loop ---- */

void GOMP_ordered_start(void);
void GOMP_ordered_end(void);

HOOK void GOMP_ordered_start(void)
{
    REAL(GOMP_ordered_start)();
    if (here.region)
        emit_await(OBJECT_REGION, &here.region->ordered, CALLER);
}

HOOK void GOMP_ordered_end(void)
{
    if (here.region)
        emit_signal(OBJECT_REGION, &here.region->ordered, CALLER);
    REAL(GOMP_ordered_end)();
}

/* ---- Critical sections and locks ---- */

/* The places that stand for the section without a name, and for operations that no processor has as an atomic one. */
static char omp_critical = 1, omp_atomic = 1;

#define ACQUIRE(name, parameters, arguments, lock)           \
    void name parameters;                                    \
    HOOK void name parameters                                \
    {                                                        \
        shake();                                             \
        REAL(name) arguments;                                \
        emit(EVENT_LOCK, LOCK_USER, (uintptr_t)(lock), CALLER); \
    }

/* It gives 0 if the lock is another thread's. */
#define TRY(name)                                            \
    int name(void *lock);                                    \
    HOOK int name(void *lock)                                \
    {                                                        \
        shake();                                             \
        int result = REAL(name)(lock);                       \
        emit_try(EVENT_LOCK, LOCK_USER, lock, result, CALLER); \
        return result;                                       \
    }

#define RELEASE(name, parameters, arguments, lock)           \
    void name parameters;                                    \
    HOOK void name parameters                                \
    {                                                        \
        emit(EVENT_UNLOCK, LOCK_USER, (uintptr_t)(lock), CALLER); \
        REAL(name) arguments;                                \
    }

#define LIFE(name, parameters, arguments, kind, place)       \
    void name parameters;                                    \
    HOOK void name parameters                                \
    {                                                        \
        REAL(name) arguments;                                \
        emit(kind, 0, (uintptr_t)lock, place);               \
    }

ACQUIRE(GOMP_critical_start, (void), (), &omp_critical)
RELEASE(GOMP_critical_end, (void), (), &omp_critical)
ACQUIRE(GOMP_critical_name_start, (void **lock), (lock), lock)
RELEASE(GOMP_critical_name_end, (void **lock), (lock), lock)
ACQUIRE(GOMP_atomic_start, (void), (), &omp_atomic)
RELEASE(GOMP_atomic_end, (void), (), &omp_atomic)

#define LOCK_FUNCTIONS(middle)                               \
    LIFE(omp_init_##middle, (void *lock), (lock), EVENT_LOCK_BEGIN, CALLER) \
    LIFE(omp_init_##middle##_with_hint, (void *lock, int hint), (lock, hint), EVENT_LOCK_BEGIN, CALLER) \
    LIFE(omp_destroy_##middle, (void *lock), (lock), EVENT_LOCK_END, 0) \
    ACQUIRE(omp_set_##middle, (void *lock), (lock), lock)    \
    RELEASE(omp_unset_##middle, (void *lock), (lock), lock)  \
    TRY(omp_test_##middle)

LOCK_FUNCTIONS(lock)
LOCK_FUNCTIONS(nest_lock)
