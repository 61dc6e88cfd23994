/* Accesses that a thread remembers: which of them the layer answers without their shard, and that it then misses nothing: settled THREADS ROUNDS.
 * It is linked with --wrap=eraser_access_span and --wrap=eraser_record, so that the accesses that come to a shard are counted. An audit is told of each word,
 * and misses nothing either. */
#include "checks.h"

#include <stdatomic.h>
#include <sys/wait.h>

enum { MOST = 64, WORDS = 2000 };

static eraser_detector *detector;
static bool audits;
static _Alignas(4096) int data[WORDS], lone[1024];
static char first_lock, second_lock, third_lock;
static atomic_uint asked, races;

uint32_t __real_eraser_access_span(eraser_shard *, eraser_thread *, uint64_t, uint64_t, bool, uint64_t *, uint8_t *);
uint32_t __wrap_eraser_access_span(eraser_shard *, eraser_thread *, uint64_t, uint64_t, bool, uint64_t *, uint8_t *);

uint32_t __wrap_eraser_access_span(eraser_shard *shard, eraser_thread *thread, uint64_t at, uint64_t bytes, bool writes, uint64_t *race, uint8_t *settled)
{
    atomic_fetch_add(&asked, 1);
    return __real_eraser_access_span(shard, thread, at, bytes, writes, race, settled);
}

uint32_t __real_eraser_record(eraser_shard *, eraser_thread *, uint64_t, uint64_t, bool);
uint32_t __wrap_eraser_record(eraser_shard *, eraser_thread *, uint64_t, uint64_t, bool);

uint32_t __wrap_eraser_record(eraser_shard *shard, eraser_thread *thread, uint64_t ticket, uint64_t at, bool writes)
{
    atomic_fetch_add(&asked, 1);
    return __real_eraser_record(shard, thread, ticket, at, writes);
}

static void count_race(void *context, const struct eraser_race *race)
{
    (void)context;
    CHECK(race->thread != race->other);
    atomic_fetch_add(&races, 1);
}

static uint32_t use(const int *word, bool writes)
{
    return writes ? eraser_write(detector, word, sizeof *word) : eraser_read(detector, word, sizeof *word);
}

/* Makes an access three times, so that it is settled and remembered. */
static void settle(const int *word, bool writes)
{
    for (int time = 0; time < 3; time++)
        CHECK(use(word, writes) == ERASER_QUIET);
}

static void take_lock(const char *lock)
{
    CHECK(eraser_locked(detector, lock, true) == ERASER_QUIET);
}

static void leave_lock(const char *lock)
{
    CHECK(eraser_unlocking(detector, lock) == ERASER_QUIET);
}

/* What another thread does: an access of the word under some of the locks. Its status. */
struct deed {
    const int *word;
    bool writes;
    const char *locks[2];
    uint32_t status;
};

static void *do_it(void *given)
{
    struct deed *deed = given;
    for (int at = 0; at < 2; at++)
        if (deed->locks[at])
            take_lock(deed->locks[at]);
    deed->status = use(deed->word, deed->writes);
    for (int at = 1; at >= 0; at--)
        if (deed->locks[at])
            leave_lock(deed->locks[at]);
    return NULL;
}

static uint32_t other(const int *word, bool writes, const char *lock, const char *more)
{
    struct deed deed = {word, writes, {lock, more}, 0};
    run_thread(do_it, &deed);
    return deed.status;
}

static void *free_it(void *given)
{
    CHECK(eraser_freeing(detector, given, sizeof(int)) == ERASER_QUIET);
    return NULL;
}

static void renew(const int *word)
{
    CHECK(eraser_freeing(detector, word, 2 * sizeof *word) == ERASER_QUIET && eraser_look(detector, word) == ERASER_VIRGIN);
}

/* How often a shard is asked meanwhile, and in an audit of how many words. */
#define ASKED(what, times, words)                               \
    do {                                                        \
        unsigned before = asked;                                \
        what;                                                   \
        CHECK(asked - before == (audits ? (words) : (times)));  \
    } while (0)

/* An access that comes again isn't asked for again, until something has changed that may matter. */
static void check_left_out(void)
{
    const int *word = lone;
    renew(word);
    ASKED(settle(word, true), 2, 3);
    ASKED(settle(word, true), 0, 3);
    ASKED(settle(word, false), 1, 3);
    ASKED(CHECK(eraser_write(detector, (const char *)word + 2, 2) == ERASER_QUIET), 0, 1);
    /* Its locks come and go: those that come back are known, and so is what was done without them. */
    take_lock(&first_lock);
    ASKED(settle(word, true), 1, 3);
    leave_lock(&first_lock);
    ASKED(settle(word, true), 0, 3);
    take_lock(&first_lock);
    take_lock(&first_lock);
    leave_lock(&first_lock);
    ASKED(settle(word, true), 0, 3);
    leave_lock(&first_lock);
    /* More words than one, and those of two groups, which are asked for each time. */
    for (int at = 60; at <= 62; at += 2) {
        size_t size = (size_t)(64 - at) * sizeof(int);
        CHECK(eraser_write(detector, &lone[at], size) == ERASER_QUIET && eraser_write(detector, &lone[at], size) == ERASER_QUIET);
        ASKED(CHECK(eraser_write(detector, &lone[at], size) == ERASER_QUIET), 0, 64 - (unsigned)at);
    }
    ASKED(CHECK(eraser_write(detector, &lone[61], 2 * sizeof(int)) == ERASER_QUIET), 0, 2);
    ASKED(CHECK(eraser_write(detector, &lone[63], 2 * sizeof(int)) == ERASER_QUIET), 1, 2);
    ASKED(CHECK(eraser_write(detector, &lone[63], 2 * sizeof(int)) == ERASER_QUIET), 1, 2);
    CHECK(eraser_freeing(detector, lone, sizeof lone) == ERASER_QUIET);
    ASKED(settle(word, true), 2, 3);
}

/* Each of these hides a race, or a thread, from whoever leaves out too much. */
static void check_nothing_missed(void)
{
    const int *word = data;
    /* Memory is freed and used again: by the same thread, and freed by another one. */
    renew(word);
    settle(word, true);
    renew(word);
    CHECK(use(word, true) == ERASER_QUIET && eraser_look(detector, word) == ERASER_EXCLUSIVE && other(word, true, NULL, NULL) == ERASER_RACE);
    renew(word);
    settle(word, true);
    renew(word);
    settle(word + 1, true);
    CHECK(use(word, true) == ERASER_QUIET && eraser_look(detector, word) == ERASER_EXCLUSIVE && other(word, true, NULL, NULL) == ERASER_RACE);
    renew(word);
    settle(word, true);
    run_thread(free_it, (void *)(uintptr_t)word);
    CHECK(use(word, false) == ERASER_QUIET && eraser_look(detector, word) == ERASER_EXCLUSIVE && other(word, true, NULL, NULL) == ERASER_RACE);
    /* A lock is released in between. */
    renew(word);
    CHECK(other(word, false, &first_lock, NULL) == ERASER_QUIET);
    take_lock(&first_lock);
    settle(word, false);
    leave_lock(&first_lock);
    CHECK(use(word, false) == ERASER_QUIET && other(word, true, &first_lock, NULL) == ERASER_RACE);
    /* The older one of two is. */
    renew(word);
    CHECK(other(word, false, &first_lock, NULL) == ERASER_QUIET);
    take_lock(&first_lock);
    take_lock(&second_lock);
    settle(word, false);
    leave_lock(&first_lock);
    CHECK(use(word, false) == ERASER_QUIET && other(word, true, &first_lock, NULL) == ERASER_RACE);
    leave_lock(&second_lock);
    /* Another one comes where it was. */
    renew(word);
    CHECK(other(word, false, &first_lock, NULL) == ERASER_QUIET);
    take_lock(&first_lock);
    settle(word, false);
    leave_lock(&first_lock);
    take_lock(&second_lock);
    CHECK(use(word, false) == ERASER_QUIET && other(word, true, &first_lock, NULL) == ERASER_RACE);
    leave_lock(&second_lock);
    /* So it is however many came and went. */
    for (int many = 1; many <= 256; many *= 2) {
        renew(word);
        CHECK(other(word, false, &first_lock, NULL) == ERASER_QUIET);
        take_lock(&first_lock);
        settle(word, false);
        leave_lock(&first_lock);
        for (int at = 1; at < many; at++) {
            take_lock(at % 2 ? &second_lock : &third_lock);
            leave_lock(at % 2 ? &second_lock : &third_lock);
        }
        take_lock(many % 2 ? &second_lock : &third_lock);
        CHECK(use(word, false) == ERASER_QUIET && other(word, true, &first_lock, NULL) == ERASER_RACE);
        leave_lock(many % 2 ? &second_lock : &third_lock);
    }
    /* The same one comes again above another one. */
    renew(word);
    CHECK(other(word, false, &first_lock, NULL) == ERASER_QUIET);
    take_lock(&first_lock);
    take_lock(&third_lock);
    settle(word, false);
    leave_lock(&third_lock);
    leave_lock(&first_lock);
    take_lock(&second_lock);
    take_lock(&third_lock);
    CHECK(use(word, false) == ERASER_QUIET && other(word, true, &first_lock, NULL) == ERASER_RACE);
    leave_lock(&third_lock);
    leave_lock(&second_lock);
    /* It is taken again to read. */
    renew(word);
    CHECK(other(word, true, &first_lock, NULL) == ERASER_QUIET);
    take_lock(&first_lock);
    settle(word, true);
    leave_lock(&first_lock);
    CHECK(eraser_locked(detector, &first_lock, false) == ERASER_QUIET && use(word, true) == ERASER_RACE);
    leave_lock(&first_lock);
    /* Another thread changes the word. */
    renew(word);
    take_lock(&first_lock);
    settle(word, false);
    CHECK(other(word, false, &first_lock, &second_lock) == ERASER_QUIET && use(word, false) == ERASER_QUIET);
    leave_lock(&first_lock);
    CHECK(other(word, true, &second_lock, NULL) == ERASER_RACE);
    /* What was read is written. */
    renew(word);
    CHECK(other(word, false, NULL, NULL) == ERASER_QUIET);
    settle(word, false);
    CHECK(use(word, true) == ERASER_RACE);
    /* What has words beside it that weren't used, and another word of the block. */
    renew(word);
    CHECK(other(word + 1, true, NULL, NULL) == ERASER_QUIET);
    settle(word, true);
    CHECK(eraser_write(detector, word, 2 * sizeof *word) == ERASER_RACE);
    renew(word);
    CHECK(other(word, true, NULL, NULL) == ERASER_QUIET);
    settle(word + 1, true);
    CHECK(eraser_write(detector, word, 2 * sizeof *word) == ERASER_RACE);
    renew(word);
    CHECK(eraser_freeing(detector, word + 2, sizeof *word) == ERASER_QUIET && other(word + 2, true, NULL, NULL) == ERASER_QUIET);
    settle(word, true);
    settle(word + 1, true);
    CHECK(eraser_write(detector, word, 3 * sizeof *word) == ERASER_RACE);
    renew(word);
    CHECK(eraser_freeing(detector, word + 64, sizeof *word) == ERASER_QUIET && other(word + 64, true, NULL, NULL) == ERASER_QUIET);
    settle(word, true);
    CHECK(use(word + 64, true) == ERASER_RACE);
    /* Blocks that are remembered at the same place. Of eight some are in the same shard too. */
    for (uintptr_t nth = 1; nth <= 8; nth++) {
        const int *far = (const int *)((uintptr_t)word + nth * 128 * 1024);
        CHECK(eraser_freeing(detector, far, sizeof *far) == ERASER_QUIET && other(far, true, NULL, NULL) == ERASER_QUIET);
        renew(word);
        settle(word, true);
        CHECK(use(far, true) == ERASER_RACE);
    }
    /* A bracket. */
    settle(word, true);
    CHECK(eraser_ignore_begin(detector) == ERASER_QUIET && use(word, true) == ERASER_IGNORED && eraser_ignore_begin(detector) == ERASER_QUIET);
    CHECK(eraser_ignore_end(detector) == ERASER_QUIET && use(word, true) == ERASER_IGNORED && eraser_ignore_end(detector) == ERASER_QUIET);
    ASKED(settle(word, true), 0, 3);
}

/* A thread that uses more words than it can remember rests for a while, and then remembers again. */
static void check_rest(void)
{
    bool rests = false;
    for (int pass = 0; pass < 20 && !rests; pass++) {
        for (uintptr_t block = 1; block <= 3000; block++)
            CHECK(use((const int *)(block * 1024 + 128), true) == ERASER_QUIET);
        unsigned before = asked;
        settle(lone, true);
        settle(lone, true);
        rests = asked - before == 6;
    }
    CHECK(rests);
    unsigned before, times = 0;
    do {
        before = asked;
        CHECK(use(lone, true) == ERASER_QUIET && times++ < 1000000);
    } while (asked != before);
    ASKED(settle(lone, true), 0, 3);
}

/* The child of a fork goes on with what its thread remembers, and what it does there is unknown in its parent. */
static void check_fork(void)
{
    int status = 0;
    renew(data);
    settle(data, true);
    pid_t pid = fork();
    CHECK(pid >= 0);
    if (pid == 0) {
        ASKED(settle(data, true), 0, 3);
        check_nothing_missed();
        /* No other thread was at work, so no list is missing. */
        CHECK(eraser_settle(detector, NULL) == (audits ? ERASER_QUIET : ERASER_WRONG_HANDLE));
        exit(0);
    }
    CHECK(waitpid(pid, &status, 0) == pid && WIFEXITED(status) && WEXITSTATUS(status) == 0);
    ASKED(settle(data, true), 0, 3);
    check_nothing_missed();
}

/* Many threads read the same words over and over, while words of their shards are freed and come again. After each round each word is shared, so no thread
 * may have left out what came after the last free. Each is written once then, which is a race. */
static unsigned threads, rounds;
static pthread_barrier_t meeting;

static void *read_all(void *given)
{
    unsigned me = (unsigned)(uintptr_t)given;
    for (unsigned round = 0; round < rounds; round++) {
        if (round % threads == me)
            CHECK(eraser_freeing(detector, data, sizeof data) == ERASER_QUIET);
        pthread_barrier_wait(&meeting);
        for (int time = 0; time < 4; time++)
            for (int at = 0; at < WORDS; at++)
                CHECK(use(&data[at], false) == ERASER_QUIET);
        pthread_barrier_wait(&meeting);
        for (int at = (int)me; at < WORDS; at += (int)threads)
            CHECK(eraser_look(detector, &data[at]) == ERASER_SHARED && use(&data[at], true) == ERASER_RACE && use(&data[at], true) == ERASER_QUIET);
        pthread_barrier_wait(&meeting);
        for (int at = 0; at < WORDS; at++)
            CHECK(use(&data[at], true) == ERASER_QUIET && eraser_look(detector, &data[at]) == ERASER_SHARED_MODIFIED);
        pthread_barrier_wait(&meeting);
    }
    return NULL;
}

static void check_threads(void)
{
    pthread_t started[MOST];
    unsigned before = races;
    pthread_barrier_init(&meeting, NULL, threads);
    for (unsigned at = 0; at < threads; at++)
        CHECK(pthread_create(&started[at], NULL, read_all, (void *)(uintptr_t)at) == 0);
    for (unsigned at = 0; at < threads; at++)
        CHECK(pthread_join(started[at], NULL) == 0);
    CHECK(races - before == rounds * WORDS);
}

int main(int count, char **words)
{
    struct eraser_options options = {.shards = 4, .on_race = count_race};
    audits = is_audited();
    threads = count == 3 ? (unsigned)atoi(words[1]) : 0;
    rounds = count == 3 ? (unsigned)atoi(words[2]) : 0;
    if (threads < 2 || threads > MOST || !(detector = eraser_start(&options)))
        return 2;
    check_left_out();
    check_nothing_missed();
    check_fork();
    /* In an audit it rests for ever. */
    if (!audits)
        check_rest();
    check_threads();
    CHECK(eraser_settle(detector, NULL) == (audits ? ERASER_QUIET : ERASER_WRONG_HANDLE));
    eraser_stop(detector);
    printf("fine\n");
    return 0;
}
