/* Threads: their names and stacks, and who starts and joins them. */
#include "memory.h"

#include <errno.h>
#include <limits.h>
#include <link.h>
#include <linux/futex.h>
#include <pthread.h>
#include <stdarg.h>
#include <stdlib.h>
#include <string.h>
#include <sys/prctl.h>
#include <sys/syscall.h>
#include <threads.h>
#include <time.h>
#include <unistd.h>

/* The stack of a thread, with its thread-local storage at the upper end. */
static __thread struct { void *begin; size_t size; int rounds; } stack __attribute__((tls_model("initial-exec")));
static pthread_key_t ends;
static pthread_once_t made_ends = PTHREAD_ONCE_INIT;

/* Memory of this thread's own for one file, which lies elsewhere if the file was loaded later. The C library gives it back when another thread
 * joins this one or gets its stack, and nobody has to wait for this one then. */
static int reuse_local(struct dl_phdr_info *file, size_t size, void *nothing)
{
    (void)nothing;
    if (size < offsetof(struct dl_phdr_info, dlpi_tls_data) + sizeof file->dlpi_tls_data || !file->dlpi_tls_data)
        return 0;
    for (int i = 0; i < file->dlpi_phnum; i++)
        if (file->dlpi_phdr[i].p_type == PT_TLS)
            emit_reuse(file->dlpi_tls_data, file->dlpi_phdr[i].p_memsz);
    return 0;
}

/* In which round a thread counts as ended. Online it has to be before the detector gives back what it has of the thread, in the last round but one. */
#define LAST_ROUND (IS_ONLINE ? PTHREAD_DESTRUCTOR_ITERATIONS - 2 : PTHREAD_DESTRUCTOR_ITERATIONS)

/* The C library calls this up to four times, among the destructors of the program's own keys. The last time is the thread's end. */
static void end_thread(void *again)
{
    if (++stack.rounds < LAST_ROUND) {
        pthread_setspecific(ends, again);
        return;
    }
    emit_end_of_thread();
    emit(EVENT_THREAD_END, 0, 0, 0);
    if (is_ordering())
        dl_iterate_phdr(reuse_local, NULL);
    emit_reuse(stack.begin, stack.size);
    emit_leave_lanes();
    if (IS_ONLINE)
        online_end_of_thread();
    if (KEEPS_STACKS)
        stack_end();
}

static void make_ends(void)
{
    if (pthread_key_create(&ends, end_thread) != 0)
        ends = (pthread_key_t)-1;
}

static int find_stack(pthread_attr_t *found)
{
    self.is_beginning = true;
    int result = pthread_getattr_np(pthread_self(), found);
    self.is_beginning = false;
    return result;
}

/* The stack of a new thread may be that of an old one, or lie where the program had a block. So its memory gets a new use, and it is a block without a place.
 * `place` is that of the call that created the thread, in these calls. */
static void begin_thread(uint32_t calls, uint64_t place)
{
    pthread_attr_t found;
    if (!is_recording())
        return;
    emit(EVENT_THREAD, calls, (uint64_t)pthread_self(), place);
    if (find_stack(&found) != 0)
        return;
    if (pthread_attr_getstack(&found, &stack.begin, &stack.size) == 0) {
        if (KEEPS_STACKS)
            stack_begin(stack.begin, stack.size);
        emit_reuse(stack.begin, stack.size);
        if (KEEPS_BLOCKS)
            emit_taken(stack.begin, stack.size, 0);
    }
    pthread_attr_destroy(&found);
    if (ends != (pthread_key_t)-1)
        pthread_setspecific(ends, &stack);
}

/* What the new thread does. */
struct task {
    void *(*body)(void *);
    int (*c11_body)(void *);
    void *argument;
};

/* What the starting thread gives to the new one. Both use it, and whoever is done with it last frees it. */
struct start {
    struct task task;
    /* Whether the start is recorded, decided once: if it is, the new thread waits until it has its number. */
    bool is_ordered;
    _Atomic uint32_t is_named;
    _Atomic uint32_t users;
    uint32_t number;
    /* Where the call is that creates the thread, and the calls around it, as in a slot. */
    uint32_t calls;
    uint64_t place;
};

static struct start *make_start(struct task task, uint32_t calls, uint64_t place)
{
    struct start *start = take_own(sizeof *start);
    REAL(pthread_once)(&made_ends, make_ends);
    if (start)
        *start = (struct start){task, is_ordering(), 0, 2, 0, calls, place};
    return start;
}

static void leave_start(struct start *start)
{
    if (atomic_fetch_sub(&start->users, 1) == 1)
        give_own(start);
}

/* The calls in which a thread is created. */
static inline __attribute__((always_inline)) uint32_t calls_around(uint64_t place)
{
    return KEEPS_STACKS ? stack_look_from((uintptr_t)__builtin_dwarf_cfa(), place) : 0;
}

/* The start of a thread is recorded when it is there, and before it does anything. */
static void name_thread(struct start *start, uint64_t thread, uint64_t site)
{
    int error = errno;
    struct ring *ring = attached->ring;
    if (ring) {
        start->number = atomic_fetch_add_explicit(&ring->threads, 1, memory_order_relaxed) + 1;
        emit(EVENT_START, start->number, thread, site);
    }
    atomic_store(&start->is_named, 1);
    syscall(SYS_futex, &start->is_named, FUTEX_WAKE_PRIVATE, 1, NULL, NULL, 0);
    errno = error;
}

/* The starting thread is done with `start`. A new thread that does not wait may have put the memory of `thread` to another use. */
static void end_start(struct start *start, bool is_started, const pthread_t *thread, uint64_t site)
{
    if (!is_started) {
        give_own(start);
        return;
    }
    if (start->is_ordered)
        name_thread(start, (uint64_t)*thread, site);
    leave_start(start);
}

static struct task take_start(void *given)
{
    struct start *start = given;
    while (start->is_ordered && !atomic_load(&start->is_named))
        syscall(SYS_futex, &start->is_named, FUTEX_WAIT_PRIVATE, 0, NULL, NULL, 0);
    struct task task = start->task;
    uint32_t calls = start->calls;
    uint64_t place = start->place;
    if (start->number && is_recording())
        begin_self(attached->ring, start->number);
    leave_start(start);
    begin_thread(calls, place);
    shake();
    return task;
}

#if KEEPS_STACKS
static void leave_all(const bool *is_left)
{
    (void)is_left;
    stack_clear();
}
/* However the thread's function ends, no function that it has entered calls the destructors of the thread's keys. */
#define LEAVES_ALL __attribute__((cleanup(leave_all))) const bool is_left = true; (void)is_left;
#else
#define LEAVES_ALL
#endif

static void *run_thread(void *given)
{
    struct task task = take_start(given);
    LEAVES_ALL
    return task.body(task.argument);
}

static int run_c11_thread(void *given)
{
    struct task task = take_start(given);
    LEAVES_ALL
    return task.c11_body(task.argument);
}

HOOK int pthread_create(pthread_t *restrict thread, const pthread_attr_t *restrict how, void *(*body)(void *), void *restrict argument)
{
    if (!is_recording() && !attach_child())
        return REAL(pthread_create)(thread, how, body, argument);
    struct start *start = make_start((struct task){body, NULL, argument}, calls_around(CALLER), CALLER);
    if (!start)
        return EAGAIN;
    shake();
    int result = REAL(pthread_create)(thread, how, run_thread, start);
    end_start(start, result == 0, thread, CALLER);
    return result;
}

HOOK int thrd_create(thrd_t *thread, thrd_start_t body, void *argument)
{
    if (!is_recording() && !attach_child())
        return REAL(thrd_create)(thread, body, argument);
    struct start *start = make_start((struct task){NULL, body, argument}, calls_around(CALLER), CALLER);
    if (!start)
        return thrd_nomem;
    shake();
    int result = REAL(thrd_create)(thread, run_c11_thread, start);
    end_start(start, result == thrd_success, thread, CALLER);
    return result;
}

/* Whom a thread joins is recorded before, since its pthread_t may be another thread's right after. That it joined is recorded after. */
#define JOIN(name, parameters, arguments)                    \
    HOOK int name parameters                                 \
    {                                                        \
        if (is_ordering())                                   \
            emit(EVENT_JOIN_WHOM, 0, (uint64_t)thread, 0);   \
        int result = REAL(name) arguments;                   \
        if (result == 0 && is_ordering())                    \
            emit(EVENT_JOIN, 0, (uint64_t)thread, CALLER);   \
        return result;                                       \
    }

typedef const struct timespec *until;

JOIN(pthread_join, (pthread_t thread, void **found), (thread, found))
JOIN(pthread_tryjoin_np, (pthread_t thread, void **found), (thread, found))
JOIN(pthread_timedjoin_np, (pthread_t thread, void **found, until when), (thread, found, when))
JOIN(pthread_clockjoin_np, (pthread_t thread, void **found, clockid_t clock, until when), (thread, found, clock, when))
JOIN(thrd_join, (thrd_t thread, int *found), (thread, found))

static void note_name(pthread_t thread, const char *name)
{
    uint64_t text[2] = {0, 0};
    if (!is_recording())
        return;
    memcpy(text, name, strnlen(name, sizeof text - 1));
    emit(EVENT_NAME_WHOM, 0, (uint64_t)thread, 0);
    emit(EVENT_NAME, 0, text[0], text[1]);
}

HOOK int pthread_setname_np(pthread_t thread, const char *name)
{
    int result = REAL(pthread_setname_np)(thread, name);
    if (result == 0)
        note_name(thread, name);
    return result;
}

/* A thread that names itself without the function above. */
HOOK int prctl(int option, ...)
{
    unsigned long values[4];
    va_list rest;
    va_start(rest, option);
    for (unsigned i = 0; i < 4; i++)
        values[i] = va_arg(rest, unsigned long);
    va_end(rest);
    int result = (int)syscall(SYS_prctl, option, values[0], values[1], values[2], values[3]);
    if (result == 0 && option == PR_SET_NAME)
        note_name(pthread_self(), (const char *)values[0]);
    return result;
}
