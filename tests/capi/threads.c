/* Many threads at work at once: threads THREADS ROUNDS. Of each word it is known whether it races, in whatever order the threads come. Prints `fine`, or what
 * isn't. An audit settles into as many steps as the threads made. */
#include "checks.h"

#include <stdatomic.h>

/* An audit keeps each word of an access, so it gets the long ones in one of SELDOM rounds. */
enum { MOST = 64, LOCKS = 40, WORDS = 1500, OWN = 1100, READ = 100, SELDOM = 50 };

static eraser_detector *detector;
static unsigned threads, rounds;
static bool audits;
static atomic_uint_least64_t steps; /* which an audit has */
static pthread_barrier_t meeting;
/* Each word of `guarded` is used under one lock, each of `bare` under none, each of `mixed` under the locks of whoever comes. */
static int guarded[WORDS], bare[WORDS], mixed[WORDS], read_only[READ];
static int own[MOST][OWN];
static pthread_mutex_t locks[LOCKS];
static pthread_rwlock_t shared = PTHREAD_RWLOCK_INITIALIZER;
static atomic_uint races[2 * WORDS], others, wrong, blocks_raced;

static void fail(const char *what)
{
    if (atomic_fetch_add(&wrong, 1) < 10)
        printf("wrong: %s\n", what);
}

static void note(void *context, const struct eraser_race *race)
{
    (void)context;
    const volatile int *word = race->word;
    if (word >= bare && word < bare + WORDS)
        atomic_fetch_add(&races[word - bare], 1);
    else if (word >= mixed && word < mixed + WORDS)
        atomic_fetch_add(&races[WORDS + (word - mixed)], 1);
    else
        atomic_fetch_add(&others, 1);
    if (race->thread == race->other || race->thread == 0 || race->thread > 2 * threads + 1 || race->other > 2 * threads + 1 || race->lock_count > 1)
        fail("what is told of a race");
}

static void quiet(uint32_t status, const char *what)
{
    if (status != ERASER_QUIET)
        fail(what);
}

/* A step for each page. */
static void free_bytes(const void *at, size_t size, const char *what)
{
    quiet(eraser_freeing(detector, at, size), what);
    atomic_fetch_add(&steps, ((uintptr_t)at + size - 1) / 4096 - (uintptr_t)at / 4096 + 1);
}

static void use_lock(unsigned at, int *word)
{
    pthread_mutex_lock(&locks[at]);
    quiet(eraser_locked(detector, &locks[at], true), "a lock");
    quiet(eraser_write(detector, word, sizeof *word), "a guarded word");
    quiet(eraser_locked(detector, &locks[at], true), "a lock once more");
    quiet(eraser_unlocking(detector, &locks[at]), "a release of two");
    quiet(eraser_read(detector, word, sizeof *word), "a guarded word that is read");
    quiet(eraser_unlocking(detector, &locks[at]), "a release");
    pthread_mutex_unlock(&locks[at]);
}

static void use_block(unsigned me, unsigned round)
{
    int *block = malloc(64);
    if (!block)
        exit(99);
    for (int at = 0; at < 16; at++)
        if (eraser_write(detector, &block[at], 4) != ERASER_QUIET)
            atomic_fetch_add(&blocks_raced, 1);
    free_bytes(block, 64, "a free");
    free(block);
    pthread_mutex_t local;
    pthread_mutex_init(&local, NULL);
    quiet(eraser_locked(detector, &local, round % 2), "a lock of this thread");
    quiet(eraser_write(detector, &own[me][round % OWN], 4), "a word of this thread");
    quiet(eraser_unlocking(detector, &local), "its release");
    quiet(eraser_destroying(detector, &local), "its end");
    pthread_mutex_destroy(&local);
}

static void *work(void *given)
{
    unsigned me = (unsigned)(uintptr_t)given;
    pthread_barrier_wait(&meeting);
    for (unsigned round = 0; round < rounds; round++) {
        unsigned at = (round * 7 + me * 13) % WORDS;
        use_lock(at % LOCKS, &guarded[at]);
        uint32_t status = eraser_write(detector, &bare[at], sizeof bare[at]);
        if (status != ERASER_QUIET && status != ERASER_RACE)
            fail("a bare word");
        unsigned lock = round / 5 % 2 ? at % LOCKS : (at + 1 + me) % LOCKS;
        pthread_mutex_lock(&locks[lock]);
        quiet(eraser_locked(detector, &locks[lock], true), "a lock of a mixed word");
        status = eraser_write(detector, &mixed[at], sizeof mixed[at]);
        if (status != ERASER_QUIET && status != ERASER_RACE)
            fail("a mixed word");
        quiet(eraser_unlocking(detector, &locks[lock]), "its release");
        pthread_mutex_unlock(&locks[lock]);
        bool has_long = !audits || round % SELDOM == 0;
        if (has_long) {
            quiet(eraser_read(detector, read_only, sizeof read_only), "words that are only read");
            quiet(eraser_write(detector, own[me], sizeof own[me]), "words of this thread");
        }
        pthread_rwlock_rdlock(&shared);
        quiet(eraser_locked(detector, &shared, false), "a lock to read");
        quiet(eraser_read(detector, guarded, 0), "no byte");
        quiet(eraser_unlocking(detector, &shared), "its release");
        pthread_rwlock_unlock(&shared);
        use_block(me, round);
        if (round % 16 == 0) {
            quiet(eraser_ignore_begin(detector), "a begin of ignoring");
            if (eraser_write(detector, read_only, sizeof read_only) != ERASER_IGNORED)
                fail("an ignored access");
            quiet(eraser_ignore_end(detector), "an end of ignoring");
        }
        /* 4 of the guarded word, 1 of the bare one, 3 of the mixed one, 2 of the lock to read, 19 of the block and of the lock of this thread. */
        atomic_fetch_add(&steps, 29 + (has_long ? READ + OWN : 0) + (round % 16 == 0 ? 2 : 0));
    }
    return NULL;
}

int main(int count, char **words)
{
    pthread_t started[MOST];
    struct eraser_options options = {.shards = 16, .on_race = note};
    audits = is_audited();
    threads = count == 3 ? (unsigned)atoi(words[1]) : 0;
    rounds = count == 3 ? (unsigned)atoi(words[2]) : 0;
    if (threads < 2 || threads > MOST || rounds < WORDS || !(detector = eraser_start(&options)))
        return 2;
    for (int at = 0; at < LOCKS; at++)
        pthread_mutex_init(&locks[at], NULL);
    pthread_barrier_init(&meeting, NULL, threads);
    /* Two generations: the second one's threads get handles of their own. */
    for (int generation = 0; generation < 2; generation++) {
        for (unsigned at = 0; at < threads; at++)
            if (pthread_create(&started[at], NULL, work, (void *)(uintptr_t)at) != 0)
                return 2;
        for (unsigned at = 0; at < threads; at++)
            pthread_join(started[at], NULL);
        for (unsigned at = 0; at < threads; at++)
            free_bytes(own[at], sizeof own[at], "a free of a thread's words");
    }
    for (int at = 0; at < WORDS; at++) {
        if (races[at] != 1)
            fail("a bare word races once");
        if (races[WORDS + at] > 1)
            fail("a mixed word races once at most");
        if (eraser_look(detector, &bare[at]) != ERASER_SHARED_MODIFIED || eraser_look(detector, &guarded[at]) != ERASER_SHARED_MODIFIED ||
            eraser_look(detector, &read_only[at % READ]) != ERASER_SHARED)
            fail("the state of a word");
    }
    if (others || blocks_raced)
        fail("a race of other words");
    if (eraser_look(detector, &own[0][0]) != ERASER_VIRGIN)
        fail("a word that was freed");
    /* The main thread's first call came between the two generations. */
    if (eraser_self(detector) != threads + 1)
        fail("the numbers of threads");
    uint64_t settled = 0;
    if (eraser_settle(detector, &settled) != (audits ? ERASER_QUIET : ERASER_WRONG_HANDLE) || settled != (audits ? steps : 0))
        fail("the settlement");
    eraser_stop(detector);
    if (!wrong)
        printf("fine\n");
    return wrong ? 1 : 0;
}
