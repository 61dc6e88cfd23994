/* Signal handlers and forks while other threads are at work: no call waits for what it interrupted. An audit settles, but in a child, where lists are missing. */
#include "checks.h"

#include <sched.h>
#include <signal.h>
#include <stdatomic.h>
#include <sys/wait.h>

enum { WORKERS = 3, SIGNALS = 2000, FORKS = 60, WORDS = 5000, LOCKS = 1000 };

static eraser_detector *detector;
static int data[WORDS], of_handler, of_child, before_child;
static char locks[LOCKS], handler_lock;
static atomic_bool stops;
static atomic_uint busy_calls, quiet_calls, other_calls, races, handled, forked, met;
static bool audits;

static void count_race(void *context, const struct eraser_race *race)
{
    (void)context;
    (void)race;
    atomic_fetch_add(&races, 1);
}

static void count(uint32_t status)
{
    atomic_fetch_add(status == ERASER_BUSY ? &busy_calls : status == ERASER_QUIET ? &quiet_calls : &other_calls, 1);
}

/* All of its memory is there before, and the worker asks malloc for none. */
static void handle(int number)
{
    (void)number;
    count(eraser_write(detector, &of_handler, sizeof of_handler));
    uint32_t status = eraser_locked(detector, &handler_lock, true);
    count(status);
    if (status == ERASER_QUIET)
        count(eraser_unlocking(detector, &handler_lock));
    eraser_pause();
    if (eraser_read(detector, data, sizeof data) != ERASER_BUSY || eraser_self(detector) != 0)
        atomic_fetch_add(&other_calls, 1);
    eraser_resume();
}

static void *interrupted(void *unused)
{
    (void)unused;
    /* An audit keeps each access, so it gets one in 100 calls of the handler. */
    for (unsigned written = 0; !stops;)
        if (audits && 100 * written > busy_calls + quiet_calls)
            eraser_look(detector, data);
        else if (written++, eraser_write(detector, data, sizeof data) > ERASER_RACE)
            atomic_fetch_add(&other_calls, 1);
    return NULL;
}

static void check_signals(void)
{
    pthread_t thread;
    struct sigaction action = {.sa_handler = handle};
    CHECK(sigaction(SIGUSR1, &action, NULL) == 0);
    CHECK(eraser_write(detector, data, sizeof data) == ERASER_QUIET && eraser_freeing(detector, data, sizeof data) == ERASER_QUIET);
    CHECK(eraser_locked(detector, &handler_lock, true) == ERASER_QUIET && eraser_unlocking(detector, &handler_lock) == ERASER_QUIET);
    CHECK(eraser_write(detector, &of_handler, 4) == ERASER_QUIET && eraser_freeing(detector, &of_handler, 4) == ERASER_QUIET);
    /* Outside of a call its own calls work. */
    CHECK(raise(SIGUSR1) == 0 && quiet_calls == 3 && busy_calls == 0 && eraser_look(detector, &of_handler) == ERASER_EXCLUSIVE);
    CHECK(eraser_freeing(detector, &of_handler, 4) == ERASER_QUIET);
    CHECK(pthread_create(&thread, NULL, interrupted, NULL) == 0);
    while (eraser_look(detector, &data[WORDS - 1]) == ERASER_VIRGIN)
        sched_yield();
    /* Signals that are sent while one is pending are one, so some are awaited. The thread is in a call nearly all the time. */
    for (int sent = 0; sent < SIGNALS || !busy_calls; sent++) {
        CHECK(pthread_kill(thread, SIGUSR1) == 0);
        if (sent % 8 == 0)
            sched_yield();
    }
    stops = true;
    CHECK(pthread_join(thread, NULL) == 0 && other_calls == 0);
}

/* One signal's handler opens a pause, and the next one's closes it, at any instruction. No pause and no end of one is lost. */
static bool is_paused;
static void change_pause(int number)
{
    (void)number;
    if (is_paused)
        eraser_resume();
    else
        eraser_pause();
    is_paused = !is_paused;
    atomic_fetch_add(&handled, 1);
}

static void *call_shortly(void *unused)
{
    sigset_t blocked;
    while (!stops)
        for (int nth = 0; nth < 100; nth++)
            CHECK(eraser_self(detector) < 10);
    sigemptyset(&blocked);
    sigaddset(&blocked, SIGUSR2);
    CHECK(pthread_sigmask(SIG_BLOCK, &blocked, NULL) == 0 && (eraser_self(detector) == 0) == is_paused);
    if (is_paused)
        eraser_resume();
    CHECK(eraser_self(detector) != 0);
    return unused;
}

static void check_pauses(void)
{
    pthread_t thread;
    struct sigaction action = {.sa_handler = change_pause};
    stops = false;
    CHECK(sigaction(SIGUSR2, &action, NULL) == 0 && pthread_create(&thread, NULL, call_shortly, NULL) == 0);
    for (unsigned sent = 0; handled < SIGNALS; sent++) {
        CHECK(pthread_kill(thread, SIGUSR2) == 0);
        if (sent % 8 == 0)
            sched_yield();
    }
    stops = true;
    CHECK(pthread_join(thread, NULL) == 0);
}

static void *at_work(void *given)
{
    int *mine = given;
    for (unsigned round = 0; !stops; round++) {
        /* An audit keeps what these do, so they do it four times between two forks, and else take the same locks for nothing. */
        while (audits && round > 4 * forked && !stops)
            CHECK(eraser_look(detector, mine) <= ERASER_EXCLUSIVE && eraser_destroying(detector, mine) == ERASER_QUIET);
        CHECK(eraser_locked(detector, &locks[round % LOCKS], true) == ERASER_QUIET);
        met += round == 0;
        CHECK(eraser_write(detector, mine, WORDS / WORKERS / 2 * 4) == ERASER_QUIET);
        CHECK(eraser_unlocking(detector, &locks[round % LOCKS]) == ERASER_QUIET);
        if (round % 64 == 0)
            CHECK(eraser_freeing(detector, mine, WORDS / WORKERS / 2 * 4) == ERASER_QUIET);
    }
    return NULL;
}

static void *in_child(void *unused)
{
    (void)unused;
    CHECK(eraser_write(detector, &of_child, sizeof of_child) == ERASER_RACE);
    return NULL;
}

/* The child has what was known before it, its own thread's lock among it, and can use every shard and every table. With `threads` it starts one. */
static int child(bool threads)
{
    unsigned before = races;
    uint32_t status = eraser_write(detector, &before_child, sizeof before_child);
    if (status != ERASER_QUIET || eraser_unlocking(detector, &handler_lock) != ERASER_QUIET || eraser_unlocking(detector, &handler_lock) != ERASER_NOT_HELD)
        return 1;
    if (eraser_freeing(detector, data, sizeof data) != ERASER_QUIET || eraser_write(detector, data, sizeof data) != ERASER_QUIET)
        return 2;
    for (int at = 0; at < LOCKS; at++)
        if (eraser_locked(detector, &locks[at], true) != ERASER_QUIET || eraser_unlocking(detector, &locks[at]) != ERASER_QUIET)
            return 3;
    if (eraser_settle(detector, NULL) != (audits ? ERASER_SEAT_MISSING : ERASER_WRONG_HANDLE))
        return 4;
    if (threads) {
        eraser_write(detector, &of_child, sizeof of_child);
        run_thread(in_child, NULL);
        if (races != before + 1)
            return 5;
        eraser_stop(detector);
    }
    return 0;
}

static void check_forks(bool threads)
{
    pthread_t workers[WORKERS];
    stops = false;
    CHECK(eraser_freeing(detector, data, sizeof data) == ERASER_QUIET);
    for (int at = 0; at < WORKERS; at++)
        CHECK(pthread_create(&workers[at], NULL, at_work, &data[WORDS / WORKERS * at]) == 0);
    CHECK(eraser_locked(detector, &handler_lock, true) == ERASER_QUIET && eraser_write(detector, &before_child, 4) == ERASER_QUIET);
    while (met < WORKERS)
        sched_yield();
    for (int made = 0; made < FORKS; made++) {
        int status = 0;
        /* Between pauses too, where nothing is under way. */
        if (made % 3 == 1)
            eraser_pause();
        forked++;
        pid_t pid = fork();
        if (made % 3 == 1)
            eraser_resume();
        CHECK(pid >= 0);
        if (pid == 0)
            _exit(child(threads));
        CHECK(waitpid(pid, &status, 0) == pid && WIFEXITED(status) && WEXITSTATUS(status) == 0);
    }
    CHECK(eraser_look(detector, &of_child) == ERASER_VIRGIN && eraser_unlocking(detector, &handler_lock) == ERASER_QUIET);
    stops = true;
    for (int at = 0; at < WORKERS; at++)
        pthread_join(workers[at], NULL);
}

/* `breaks apart` starts no thread in a child: under ThreadSanitizer none may, and under AddressSanitizer it may wait for ever. */
int main(int words, char **given)
{
    struct eraser_options options = {.shards = 8, .on_race = count_race};
    (void)given;
    options.audit = audits = is_audited();
    CHECK(unsetenv("ERASER_AUDIT") == 0); /* eraser_stop would say in a child that lists are missing */
    CHECK((detector = eraser_start(&options)) != NULL);
    check_signals();
    check_pauses();
    check_forks(words == 1);
    CHECK(eraser_settle(detector, NULL) == (audits ? ERASER_QUIET : ERASER_WRONG_HANDLE));
    eraser_stop(detector);
    printf("fine\n");
    return 0;
}
