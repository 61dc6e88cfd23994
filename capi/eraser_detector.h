/* Eraser's lockset race detector for C and C++.
 *
 * A program reports which memory its threads read and write and which locks they hold. The detector answers at once whether an access is a race: a word
 * that several threads use, that is written, and that no lock protects at each access. docs/LIBRARY.md has programs that build and run.
 *
 * There are two parts. Most programs need the first one alone.
 *
 *   1. The detector of a program with POSIX threads: eraser_start, eraser_read, eraser_write, eraser_locked, .. It finds each thread's locks, and the
 *      shard of each word. It is C (eraser_pthread.c), and tested.
 *   2. The proved calls below it: shards and threads as handles. A program that has its own threads, locks and memory calls them itself.
 *
 * Link with -leraser -pthread. Words are 4 bytes, pages 1,024 words. Addresses are below 2^48.
 *
 * This is not eraser.h, which has the annotations of a program that is recorded. The two go together. */
#ifndef ERASER_DETECTOR_H
#define ERASER_DETECTOR_H

#include <stdbool.h>
#include <stddef.h>
#include <stdint.h>

#ifdef __cplusplus
extern "C" {
#endif

#if defined(__GNUC__)
#define ERASER_NONNULL __attribute__((nonnull))
#else
#define ERASER_NONNULL
#endif

/* What a call answers. From ERASER_ALREADY_HELD to ERASER_WRONG_HANDLE, and ERASER_BUSY: the call was refused. A refused call has changed nothing, but
 * where it says so. */
enum eraser_status {
    ERASER_QUIET = 0,                 /* no race was found, or the call was done */
    ERASER_RACE = 1,                  /* this access is a race. Each word has at most one until it is freed */
    ERASER_IGNORED = 2,               /* an access by a thread that ignores its accesses: nothing was noted */
    ERASER_ALREADY_HELD = 3,          /* the thread holds the lock */
    ERASER_NOT_HELD = 4,              /* the thread doesn't hold the lock */
    ERASER_WRONG_MODE = 5,            /* the thread holds the lock in the other mode */
    ERASER_IGNORE_NOT_ON = 6,         /* an end of ignoring without its begin */
    ERASER_IGNORE_TOO_DEEP = 7,       /* 255 begins of ignoring are open */
    ERASER_HELD_FULL = 8,             /* the thread holds 64 locks */
    ERASER_SIZE_TOO_LARGE = 9,        /* more than 4,194,304 bytes in one proved call */
    ERASER_ADDRESS_OUT_OF_RANGE = 10, /* some byte has an address of 2^48 or more */
    ERASER_JOURNAL_FULL = 11,         /* an audited shard took 2^32 - 1 calls */
    ERASER_TABLE_FULL = 12,           /* the shard has max_sets sets of locks, and the access wants one more */
    ERASER_OUT_OF_MEMORY = 13,        /* no memory was there */
    ERASER_FOREIGN_SEAT = 14,         /* an audit: a seat of another detector */
    ERASER_TOO_MANY_THREADS = 15,     /* the thread's number is 2^30 or more */
    ERASER_LEVEL_TOO_HIGH = 16,       /* an interrupt level above 31 */
    ERASER_LEVEL_LOCK = 17,           /* the number of a lock is above 4,294,967,264: these are the levels' locks */
    ERASER_EMPTY_HANDLE = 18,         /* the handle is empty, or the detector is null */
    ERASER_WRONG_HANDLE = 19,         /* a handle of another sort than the call takes, or a detector that keeps no journals */
    ERASER_VIRGIN = 20,               /* a word's state: nobody has used it since it was freed */
    ERASER_EXCLUSIVE = 21,            /* one thread has used it */
    ERASER_SHARED = 22,               /* several threads have, and none wrote it since the second one came */
    ERASER_SHARED_MODIFIED = 23,      /* several threads have, and it was written since the second one came */
    ERASER_SEAT_TWICE = 24,           /* an audit: two seats of one thread */
    ERASER_SEAT_MISSING = 25,         /* an audit: the seat of a thread is missing */
    ERASER_ORDER = 26,                /* an audit: tickets that don't rise, or one that was drawn twice */
    ERASER_ENTRIES = 27,              /* an audit: an access that isn't in the journal of its word's shard, or one that no thread lists */
    ERASER_ANSWER = 28,               /* an audit: an access that its thread and its shard don't have with the same answer and locks */
    ERASER_FOREIGN_SHARD = 29,        /* an audit: a shard of another detector */
    ERASER_BUSY = 32                  /* the call came inside another call of the same thread, or between eraser_pause and eraser_resume */
};

/* A status in words, such as "already held". */
const char *eraser_text(uint32_t status);

/* ---- 1. The detector of a program with POSIX threads ----
 *
 * Any thread may make any of these calls at any time between eraser_start and eraser_stop. The detector makes a handle for each thread at its first call,
 * and takes it back when the thread ends. Threads are numbered from 1 in the order of their first calls, and no number is given twice.
 *
 * Report what happens in the order in which it happens. The names say when to call:
 *   eraser_locked      after the lock was taken
 *   eraser_unlocking   before it is released
 *   eraser_destroying  before a lock's memory is something else
 *   eraser_freeing     before bytes are given back, or are handed to another thread that goes on without a lock
 * A lock is any address that stands for it, but not null. Recursive locks count: a lock is held until it was released as often as taken.
 * Only eraser_start, and eraser_print where the program itself calls it, may change errno or be a point of cancellation.
 *
 * Signal handlers. A call inside another call of the same thread does nothing and answers ERASER_BUSY, so a handler never waits for what it interrupted.
 * A call that interrupts other code works, and may ask malloc for memory: a handler that may interrupt malloc brackets itself by eraser_pause and
 * eraser_resume, and its calls answer ERASER_BUSY. A handler that may have interrupted a call returns: it doesn't leave by longjmp or pthread_exit. Nor is a
 * thread cancelled asynchronously in a call.
 *
 * Priorities. A call waits for a short time for those of other threads on the same words, and lets others run meanwhile (sched_yield). Among threads of
 * SCHED_FIFO or SCHED_RR with different priorities, which share a processor, such a wait may not end: give them one priority.
 *
 * Forks. The child of `fork` goes on with a copy of the detector in which the forking thread alone makes calls, with the locks that it had. The child of
 * `vfork`, of `clone`, or of a fork inside another call (from a handler) makes no call. */

typedef struct eraser_detector eraser_detector;

/* A race, as `on_race` gets it. What the pointers point to is there until `on_race` returns. */
struct eraser_race {
    const volatile void *address;  /* the first byte of the access that found it */
    size_t size;                   /* how many bytes that access has */
    const volatile void *word;     /* the first of its words that is a race; others may be too */
    bool writes;                   /* whether it writes */
    uint32_t thread;               /* the thread that made it */
    uint32_t other;                /* which other thread last used the word, 0 if that is no longer known: a shard remembers 128 words. A use that was
                                    * the same as one of that thread before, and changed nothing, doesn't count */
    size_t lock_count;             /* how many locks the thread holds now .. */
    const volatile void *const *locks; /* .. which ones, the oldest first .. */
    const bool *lock_writes;       /* .. and whether each is held to write */
    const void *site;              /* where the call of eraser_read or eraser_write returns to: the byte before is the call's */
};

/* Called in the thread that made the access, which holds no lock of the detector's. It must return, and calls inside it answer ERASER_BUSY. The thread can't
 * be cancelled meanwhile. */
typedef void eraser_on_race(void *context, const struct eraser_race *race);

struct eraser_options {
    unsigned shards;         /* how many parts the words have, each under its own lock: rounded up to a power of two, at most 65,536. 0 stands for 256 */
    uint32_t max_sets;       /* how many different sets of locks a shard keeps, at most 1,048,576. 0 stands for that */
    eraser_on_race *on_race; /* NULL stands for eraser_print */
    void *context;           /* what on_race gets */
    bool audit;              /* whether all calls are kept, for eraser_settle; so they are if ERASER_AUDIT is set and not empty in the environment */
};

/* A new detector; NULL stands for the usual options. If there is none, NULL with errno: EINVAL for too many shards or sets, ENOMEM, or EAGAIN if the
 * process has no more keys of threads. A process may have several. */
eraser_detector *eraser_start(const struct eraser_options *options);
/* Gives all of it back. Each other thread that made a call has ended or makes no more, and none ends meanwhile. Not inside on_race. NULL is fine. If
 * ERASER_AUDIT is set, it settles first, and prints a line on standard error if that fails. */
void eraser_stop(eraser_detector *detector);

/* An access of so many bytes. ERASER_RACE if one of its words is a race; on_race was then called, once. If it is refused for lack of memory or by a full
 * table, the words before the refused one are noted. */
uint32_t eraser_read(eraser_detector *detector, const volatile void *address, size_t size);
uint32_t eraser_write(eraser_detector *detector, const volatile void *address, size_t size);

uint32_t eraser_locked(eraser_detector *detector, const volatile void *lock, bool writes);
uint32_t eraser_unlocking(eraser_detector *detector, const volatile void *lock);
/* No thread holds it. Its number may be given to a lock that is new. Until the words that it protected are freed, that lock then counts as this one. */
uint32_t eraser_destroying(eraser_detector *detector, const volatile void *lock);
/* Each word that has one of these bytes is virgin again. It takes no memory but at a thread's first call and in an audit; if an audit finds no memory, the
 * pages before are done. */
uint32_t eraser_freeing(eraser_detector *detector, const volatile void *address, size_t size);

/* This thread's accesses between the two are ignored. They nest. */
uint32_t eraser_ignore_begin(eraser_detector *detector);
uint32_t eraser_ignore_end(eraser_detector *detector);

/* The state of the word that has this byte: ERASER_VIRGIN to ERASER_SHARED_MODIFIED. */
uint32_t eraser_look(eraser_detector *detector, const volatile void *address);
/* This thread's number. 0 if it has none: no memory was there. */
uint32_t eraser_self(eraser_detector *detector);

/* Of a detector with `audit`: checks that all calls so far make one run, each answered as the definitions say for the whole of it. ERASER_QUIET if they do, and
 * `steps` is then how many steps it has (NULL is fine). ERASER_OUT_OF_MEMORY says nothing. Any other answer is a fault of this library's C, or of a caller that
 * doesn't keep to this header. No other thread makes a call or ends meanwhile. Nothing changes, and the program may go on. */
uint32_t eraser_settle(eraser_detector *detector, uint64_t *steps);

/* This thread's calls between the two are refused, for all detectors. They nest, and may be called from a signal handler. Each eraser_resume
 * is of a pause of this thread. */
void eraser_pause(void);
void eraser_resume(void);

/* An on_race that prints a line on standard error. Its address is that of the call's last byte. */
void eraser_print(void *context, const struct eraser_race *race);

/* ---- 2. The proved calls ----
 *
 * A handle is 16 bytes of the program's. It is empty if it is zeroed. `new` fills it, and `free` leaves it empty: both take a handle of any sort, and
 * free what it had. It isn't copied while it is filled, and isn't null; nobody else writes to it. There is one call at a time for each handle: a lock of the
 * program's is held for each call on a shard, and a thread's handle is its thread's own. No call is made from a signal handler that interrupted another one.
 * They allocate by rattle_alloc, rattle_realloc and rattle_dealloc (eraser_memory.c). A shard
 * has any words: whoever calls it says which ones, and no word is in two of them. */

typedef struct eraser_shard {
    uint64_t kind;
    void *at;
} eraser_shard;

typedef struct eraser_thread {
    uint64_t kind;
    void *at;
} eraser_thread;

/* A shard that keeps at most max_sets sets of locks; the empty one doesn't count, and above 1,048,576 it is that many. What the handle had is freed. */
uint32_t eraser_shard_new(eraser_shard *shard, uint32_t max_sets) ERASER_NONNULL;
uint32_t eraser_shard_free(eraser_shard *shard) ERASER_NONNULL;
/* A thread of this number, below 2^30, that holds no lock. What the handle had is freed. */
uint32_t eraser_thread_new(eraser_thread *thread, uint32_t number) ERASER_NONNULL;
uint32_t eraser_thread_free(eraser_thread *thread) ERASER_NONNULL;

uint32_t eraser_acquire(eraser_thread *thread, uint32_t lock, bool writes) ERASER_NONNULL;
uint32_t eraser_release(eraser_thread *thread, uint32_t lock, bool writes) ERASER_NONNULL;
uint32_t eraser_thread_ignore_on(eraser_thread *thread) ERASER_NONNULL;
uint32_t eraser_thread_ignore_off(eraser_thread *thread) ERASER_NONNULL;
/* The thread is at this interrupt level, 0 to 31: it counts as holding the locks of levels 1 to this one. */
uint32_t eraser_level(eraser_thread *thread, uint32_t level) ERASER_NONNULL;
/* The numbers of the locks that it holds, rising, the locks of its level last: the first `room` of them. `count` is how many there are. */
uint32_t eraser_held(eraser_thread *thread, uint32_t *locks, size_t room, size_t *count) ERASER_NONNULL;

/* An access of the word that has this byte. A wrong handle is told of first, the thread's and then the shard's, also if the thread ignores its accesses. */
uint32_t eraser_access(eraser_shard *shard, eraser_thread *thread, uint64_t address, bool writes) ERASER_NONNULL;
/* An access of each word that has one of these bytes, in order. If one is a race, first_race is the address of the first such word, else UINT64_MAX. If it is
 * refused for lack of memory or by a full table, the words before the refused one are noted.
 * settled is 1 only if the access was counted and quiet, and left each word's state as it was; else 0. Then the same access, by the same thread with the same
 * locks, may be left out as long as no call has changed these words' states: it would be quiet and change nothing. */
uint32_t eraser_access_span(eraser_shard *shard, eraser_thread *thread, uint64_t address, uint64_t bytes, bool writes, uint64_t *first_race,
    uint8_t *settled) ERASER_NONNULL;
/* Each word that has one of these bytes is virgin again. */
uint32_t eraser_reset(eraser_shard *shard, uint64_t address, uint64_t bytes) ERASER_NONNULL;
/* ERASER_VIRGIN to ERASER_SHARED_MODIFIED. */
uint32_t eraser_state(eraser_shard *shard, uint64_t address) ERASER_NONNULL;

/* Audits. A shard with a journal and a thread with a seat keep all that is done to them. `name` stands for the detector. The calls above that take a thread
 * alone, eraser_state and both `free` work on these handles too; those of accesses and resets answer ERASER_WRONG_HANDLE. */
uint32_t eraser_journal_new(eraser_shard *shard, uint64_t name, uint32_t max_sets) ERASER_NONNULL;
/* Threads are numbered from 0, and none is left out. */
uint32_t eraser_seat_new(eraser_thread *thread, uint64_t name, uint32_t number) ERASER_NONNULL;
/* An access, as eraser_access. Tickets rise from call to call of a shard, as of a thread: draw one from a counter of all shards while the shard's lock is held.
 * One that a refused or ignored call was given may be used again or not. */
uint32_t eraser_record(eraser_shard *shard, eraser_thread *thread, uint64_t ticket, uint64_t address, bool writes) ERASER_NONNULL;
/* A reset, as eraser_reset, by a thread and of bytes on one page (else ERASER_SIZE_TOO_LARGE). */
uint32_t eraser_record_reset(eraser_shard *shard, eraser_thread *thread, uint64_t ticket, uint64_t address, uint64_t bytes) ERASER_NONNULL;
/* Whether these make one run. The page with the address `at` belongs to shard `at / 4096 % shard_count`. The seats of all numbers below `opened` are to be
 * there. ERASER_QUIET, and `steps` is how many steps the run has; else what is wrong: at the first such handle ERASER_EMPTY_HANDLE, ERASER_WRONG_HANDLE or
 * ERASER_FOREIGN_SHARD, then the first of ERASER_FOREIGN_SEAT, ERASER_SEAT_TWICE .. ERASER_ANSWER. All handles stay as they are. */
uint32_t eraser_settle_handles(uint64_t name, uint32_t opened, eraser_shard *shards, size_t shard_count, eraser_thread *seats, size_t seat_count,
    uint64_t *steps) ERASER_NONNULL;

#ifdef __cplusplus
}
#endif

#endif
