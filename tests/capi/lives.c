/* Lives of locks, threads and detectors, and what the layer refuses. An audit keeps each call and each thread, so nothing is asked of its memory. */
#include "checks.h"

#include <errno.h>
#include <malloc.h>
#include <stdatomic.h>

/* There is no memory for the handlers of forks, if that is said. It is linked with --wrap=pthread_atfork. */
static bool has_no_memory;
int __real_pthread_atfork(void (*)(void), void (*)(void), void (*)(void));
int __wrap_pthread_atfork(void (*)(void), void (*)(void), void (*)(void));

int __wrap_pthread_atfork(void (*before)(void), void (*after)(void), void (*in_child)(void))
{
    return has_no_memory ? ENOMEM : __real_pthread_atfork(before, after, in_child);
}

enum { LOCKS = 3000, STEADY = 300, ROUNDS = 40000, DETECTORS = 3 };

static eraser_detector *detector;
static bool lives[LOCKS];
static int word, steady[STEADY];
static atomic_uint races;

/* The addresses of locks, so far apart that some want the same place of a table. Nobody reads there. */
static const void *lock_at(int number)
{
    uint64_t at = (uint64_t)number * (uint64_t)number * 7919 % 1000003;
    return (const void *)(uintptr_t)(0x10000000 + at * 40);
}

static void count_race(void *context, const struct eraser_race *race)
{
    (void)race;
    atomic_fetch_add((atomic_uint *)context, 1);
}

static void use_word(const void *lock, int *used)
{
    CHECK(eraser_locked(detector, lock, true) == ERASER_QUIET);
    CHECK(eraser_write(detector, used, sizeof *used) <= ERASER_RACE);
    CHECK(eraser_unlocking(detector, lock) == ERASER_QUIET);
}

static void use(const void *lock)
{
    use_word(lock, &word);
}

/* The first locks live to the end, and each protects a word of its own. */
static void *use_steady(void *unused)
{
    (void)unused;
    for (int at = 0; at < STEADY; at++)
        use_word(lock_at(at), &steady[at]);
    return NULL;
}

static void *use_it(void *lock)
{
    use(lock);
    return NULL;
}

/* A helper that uses the word under one lock after the other, as it is told: threads cost much. */
static pthread_barrier_t meeting;
static const void *asked;
static bool ends;
static void *help(void *unused)
{
    (void)unused;
    for (;;) {
        pthread_barrier_wait(&meeting);
        if (ends)
            return NULL;
        use(asked);
        pthread_barrier_wait(&meeting);
    }
}

/* Two locks that live at a time are two, and a lock is the same all its life, however many come and go: the table grows, and gaps are closed. */
static void check_numbers(void)
{
    pthread_t helper;
    unsigned dice = 12345;
    use_steady(NULL);
    run_thread(use_steady, NULL);
    pthread_barrier_init(&meeting, NULL, 2);
    CHECK(pthread_create(&helper, NULL, help, NULL) == 0);
    for (int round = 0; round < ROUNDS; round++) {
        dice = dice * 1103515245 + 12345;
        int at = (int)(dice >> 8) % LOCKS, other = (int)(dice >> 4) % LOCKS;
        if (lives[at] && at >= STEADY && dice >> 30 == 0) {
            CHECK(eraser_destroying(detector, lock_at(at)) == ERASER_QUIET);
            lives[at] = false;
            continue;
        }
        use(lock_at(at));
        lives[at] = true;
        if (round % 8 != 0 || !lives[other])
            continue;
        unsigned before = races;
        CHECK(eraser_freeing(detector, &word, sizeof word) == ERASER_QUIET);
        use(lock_at(at));
        asked = lock_at(other);
        pthread_barrier_wait(&meeting);
        pthread_barrier_wait(&meeting);
        use(lock_at(at));
        CHECK(races - before == (at == other ? 0 : 1));
    }
    unsigned before = races;
    use_steady(NULL);
    CHECK(races == before);
    ends = true;
    pthread_barrier_wait(&meeting);
    pthread_join(helper, NULL);
    pthread_barrier_destroy(&meeting);
}

static void check_refusals(void)
{
    CHECK(eraser_unlocking(detector, lock_at(0)) == ERASER_NOT_HELD && eraser_locked(detector, NULL, true) == ERASER_ADDRESS_OUT_OF_RANGE);
    CHECK(eraser_destroying(detector, NULL) == ERASER_QUIET && eraser_ignore_end(detector) == ERASER_IGNORE_NOT_ON);
    CHECK(eraser_locked(detector, lock_at(0), false) == ERASER_QUIET && eraser_locked(detector, lock_at(0), true) == ERASER_WRONG_MODE);
    CHECK(eraser_locked(detector, lock_at(0), false) == ERASER_QUIET && eraser_unlocking(detector, lock_at(0)) == ERASER_QUIET);
    CHECK(eraser_unlocking(detector, lock_at(0)) == ERASER_QUIET && eraser_unlocking(detector, lock_at(0)) == ERASER_NOT_HELD);
    for (int at = 0; at < 64; at++)
        CHECK(eraser_locked(detector, lock_at(at), true) == ERASER_QUIET);
    CHECK(eraser_locked(detector, lock_at(64), true) == ERASER_HELD_FULL && eraser_locked(detector, lock_at(3), true) == ERASER_QUIET);
    CHECK(eraser_unlocking(detector, lock_at(64)) == ERASER_NOT_HELD && eraser_unlocking(detector, lock_at(3)) == ERASER_QUIET);
    for (int at = 63; at >= 0; at--)
        CHECK(eraser_unlocking(detector, lock_at(at)) == ERASER_QUIET);
    const void *high = (const void *)(uintptr_t)((UINT64_C(1) << 48) - 2);
    CHECK(eraser_write(detector, high, 2) == ERASER_QUIET && eraser_write(detector, high, 3) == ERASER_ADDRESS_OUT_OF_RANGE);
    CHECK(eraser_freeing(detector, high, 3) == ERASER_ADDRESS_OUT_OF_RANGE && eraser_look(detector, high) == ERASER_EXCLUSIVE);
    CHECK(eraser_write(detector, steady, SIZE_MAX) == ERASER_ADDRESS_OUT_OF_RANGE && eraser_look(detector, steady) == ERASER_VIRGIN);
    CHECK(eraser_look(detector, (const void *)(uintptr_t)(UINT64_C(1) << 48)) == ERASER_ADDRESS_OUT_OF_RANGE);
    CHECK(strcmp(eraser_text(ERASER_HELD_FULL), "too many locks held") == 0 && strcmp(eraser_text(ERASER_SHARED_MODIFIED), "shared-modified") == 0);
    CHECK(strcmp(eraser_text(ERASER_BUSY), "busy") == 0 && strcmp(eraser_text(30), "no status") == 0);
}

/* A destructor of a thread's value makes calls after the thread's function has returned, whichever comes first: it is the same thread. */
static pthread_key_t keys[2];
static uint32_t seen;
static void end_value(void *given)
{
    (void)given;
    CHECK(eraser_self(detector) == seen && eraser_write(detector, &word, sizeof word) == ERASER_QUIET);
}

static void *end_late(void *unused)
{
    (void)unused;
    CHECK(eraser_freeing(detector, &word, sizeof word) == ERASER_QUIET && eraser_write(detector, &word, sizeof word) == ERASER_QUIET);
    seen = eraser_self(detector);
    CHECK(pthread_setspecific(keys[0], &word) == 0 && pthread_setspecific(keys[1], &word) == 0);
    return NULL;
}

static void *use_no_lock(void *unused)
{
    (void)unused;
    CHECK(eraser_locked(detector, lock_at(0), true) == ERASER_QUIET && eraser_self(detector) != 0);
    return NULL;
}

/* What a thread had is given back when it ends, also if it holds a lock, and so are numbers of locks. A sanitizer's malloc doesn't say what is taken. */
static void check_memory(void)
{
    for (int round = 0; round < 50; round++)
        run_thread(use_no_lock, NULL);
    size_t before = mallinfo2().uordblks;
    for (int round = 0; round < 500; round++) {
        run_thread(use_no_lock, NULL);
        for (int at = 0; at < 20; at++)
            CHECK(eraser_locked(detector, lock_at(at * 7 + round), true) == ERASER_QUIET);
        for (int at = 0; at < 20; at++)
            CHECK(eraser_unlocking(detector, lock_at(at * 7 + round)) == ERASER_QUIET && eraser_destroying(detector, lock_at(at * 7 + round)) == ERASER_QUIET);
    }
    CHECK(is_audited() || mallinfo2().uordblks < before + 20000);
}

/* A lock that is known asks for no memory, however full its table is. */
static void check_known(void)
{
    struct eraser_options options = {.on_race = count_race, .context = &races};
    CHECK((detector = eraser_start(&options)) != NULL);
    for (int at = 0; at < LOCKS; at++) {
        CHECK(eraser_locked(detector, lock_at(at), true) == ERASER_QUIET && eraser_unlocking(detector, lock_at(at)) == ERASER_QUIET);
        size_t before = mallinfo2().uordblks;
        CHECK(eraser_locked(detector, lock_at(at), true) == ERASER_QUIET && eraser_unlocking(detector, lock_at(at)) == ERASER_QUIET);
        CHECK(is_audited() || mallinfo2().uordblks == before);
    }
    eraser_stop(detector);
}

/* A thread that is cancelled while it finds a race doesn't end there, with what it holds. errno stays as it was. */
static pthread_mutex_t held = PTHREAD_MUTEX_INITIALIZER;
static void cancel(void *context, const struct eraser_race *race)
{
    count_race(context, race);
    errno = ENOENT;
    CHECK(pthread_cancel(pthread_self()) == 0);
    pthread_testcancel();
}

static void *use_and_end(void *unused)
{
    CHECK(pthread_mutex_lock(&held) == 0);
    errno = EDOM;
    CHECK(eraser_write(detector, &word, sizeof word) == ERASER_RACE && errno == EDOM);
    CHECK(pthread_mutex_unlock(&held) == 0);
    pthread_testcancel();
    return unused;
}

static void check_cancelled(void)
{
    pthread_t thread;
    void *ended;
    struct eraser_options options = {.on_race = cancel, .context = &races};
    CHECK((detector = eraser_start(&options)) != NULL && eraser_write(detector, &word, sizeof word) == ERASER_QUIET);
    CHECK(pthread_create(&thread, NULL, use_and_end, NULL) == 0 && pthread_join(thread, &ended) == 0 && ended == PTHREAD_CANCELED);
    CHECK(pthread_mutex_trylock(&held) == 0 && pthread_mutex_unlock(&held) == 0);
    eraser_stop(detector);
}

/* Detectors know nothing of one another, also if one comes where another one was. */
static void check_detectors(void)
{
    eraser_detector *others[DETECTORS];
    atomic_uint counts[DETECTORS] = {0};
    for (int round = 0; round < 3; round++) {
        for (int at = 0; at < DETECTORS; at++) {
            struct eraser_options options = {.shards = 1 + (unsigned)at, .on_race = count_race, .context = &counts[at]};
            CHECK((others[at] = eraser_start(&options)) != NULL && eraser_look(others[at], &word) == ERASER_VIRGIN && eraser_self(others[at]) == 1);
        }
        CHECK(eraser_write(others[0], &word, 4) == ERASER_QUIET && eraser_look(others[1], &word) == ERASER_VIRGIN);
        CHECK(eraser_locked(others[0], lock_at(1), true) == ERASER_QUIET && eraser_unlocking(others[1], lock_at(1)) == ERASER_NOT_HELD);
        CHECK(eraser_unlocking(others[0], lock_at(1)) == ERASER_QUIET);
        detector = others[0];
        run_thread(use_it, (void *)(uintptr_t)lock_at(0));
        CHECK(counts[0] == 0 && eraser_write(others[0], &word, 4) == ERASER_RACE && counts[0] == 1 && counts[1] == 0);
        counts[0] = 0;
        for (int at = 0; at < DETECTORS; at++)
            eraser_stop(others[at]);
    }
}

int main(void)
{
    struct eraser_options options = {.on_race = count_race, .context = &races};
    CHECK(pthread_key_create(&keys[0], end_value) == 0);
    has_no_memory = true;
    CHECK(eraser_start(&options) == NULL && errno == ENOMEM);
    has_no_memory = false;
    CHECK((detector = eraser_start(&options)) != NULL);
    CHECK(pthread_key_create(&keys[1], end_value) == 0);
    check_refusals();
    check_numbers();
    run_thread(end_late, NULL);
    check_memory();
    eraser_stop(detector);
    check_known();
    check_cancelled();
    check_detectors();
    printf("fine\n");
    return 0;
}
