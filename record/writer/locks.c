#define _GNU_SOURCE
#include "locks.h"

#include <stdio.h>
#include <stdlib.h>

#include "names.h"
#include "options.h"
#include "pages.h"
#include "recording.h"
#include "sites.h"
#include "trace.h"

/* More locks than this no thread of a trace may hold. */
#define MOST_HELD 64

struct holder {
    uint32_t thread;
    uint32_t depth;
    bool reads;
    bool is_written; /* false if the thread held too many locks already */
};

struct lock {
    struct lock *next;
    uint64_t address;
    enum lock_kind kind;
    struct label label;
    struct holder *holders;
    uint32_t holder_count, holder_room;
};

/* By lines of 64 bytes, so that the locks in a range are found without looking at all of them. */
#define BUCKETS 65536
static struct lock *buckets[BUCKETS];

static struct lock **bucket_of(uint64_t address)
{
    return &buckets[((address >> 6) * UINT64_C(0x9e3779b97f4a7c15)) >> 48];
}

/* ---- Locks and their holders ---- */

static struct lock *find_lock(uint64_t address)
{
    struct lock *lock = *bucket_of(address);
    while (lock && lock->address != address)
        lock = lock->next;
    return lock;
}

static struct lock *add_lock(uint64_t address, uint32_t created_at)
{
    struct lock *lock = get_memory(NULL, sizeof *lock), **bucket = bucket_of(address);
    *lock = (struct lock){.next = *bucket, .address = address, .label = {NULL, address, 0, created_at}};
    *bucket = lock;
    pages_mark_lock(address);
    return lock;
}

/* A lock has its kind and its name from the first event that names it. */
static struct lock *get_lock(uint64_t address, enum lock_kind kind)
{
    static const char *const kinds[] = {"mutex", "rwlock", "spin", "user"};
    static unsigned counts[4];
    struct lock *lock = find_lock(address);
    if (!lock)
        lock = add_lock(address, 0);
    if (!lock->label.name) {
        lock->kind = kind;
        lock->label.name = make_name(address, kinds[kind], &counts[kind]);
    }
    return lock;
}

static struct holder *find_holder(struct lock *lock, uint32_t thread)
{
    for (uint32_t i = 0; i < lock->holder_count; i++)
        if (lock->holders[i].thread == thread)
            return &lock->holders[i];
    return NULL;
}

/* What an acquire is in a trace: the reader must know whether it may have waited. */
static enum verb verb_of(struct acquire acquire)
{
    if (acquire.never_waits)
        return acquire.reads ? VERB_TRY_READ_LOCK : VERB_TRY_LOCK;
    return acquire.reads ? VERB_READ_LOCK : VERB_LOCK;
}

static void add_holder(struct lock *lock, uint32_t number, struct acquire acquire)
{
    if (lock->holder_count == lock->holder_room) {
        lock->holder_room = lock->holder_room ? 2 * lock->holder_room : 1;
        lock->holders = get_memory(lock->holders, lock->holder_room * sizeof *lock->holders);
    }
    struct thread *thread = trace_thread(number);
    bool is_written = thread->held < MOST_HELD;
    lock->holders[lock->holder_count++] = (struct holder){number, 1, acquire.reads, is_written};
    if (is_written) {
        thread->held++;
        trace_lock(thread, verb_of(acquire), &lock->label, acquire.place);
    } else
        trace_lost++;
}

static void remove_holder(struct lock *lock, struct holder *holder, uint64_t place)
{
    struct thread *thread = trace_thread(holder->thread);
    if (holder->is_written) {
        thread->held--;
        trace_lock(thread, holder->reads ? VERB_READ_UNLOCK : VERB_UNLOCK, &lock->label, place);
    }
    *holder = lock->holders[--lock->holder_count];
}

static bool is_held_to_write(const struct lock *lock)
{
    return lock->holder_count == 1 && !lock->holders[0].reads;
}

/* Others hold the lock as far as the events say, and yet it was acquired: they released it in a way that is not recorded, in a library or
 * in another process. So they don't hold it any more. */
static void drop_holders(struct lock *lock)
{
    while (lock->holder_count)
        remove_holder(lock, &lock->holders[lock->holder_count - 1], 0);
}

/* ---- Locks that are no more, though they are held ---- */

/* A program may say that memory gets a new use while it holds a lock there, and release that lock later. */
struct forgotten {
    struct forgotten *next;
    uint64_t address;
    uint32_t thread, depth;
};
static struct forgotten *forgotten;
static unsigned forgotten_count;
#define MOST_FORGOTTEN 1024

static void add_forgotten(uint64_t address, const struct holder *holder)
{
    if (forgotten_count == MOST_FORGOTTEN)
        return;
    forgotten_count++;
    struct forgotten *one = get_memory(NULL, sizeof *one);
    *one = (struct forgotten){forgotten, address, holder->thread, holder->depth};
    forgotten = one;
}

/* Where the lock of this address and thread stands. Thread 0: of any. */
static struct forgotten **find_forgotten(uint64_t address, uint32_t thread)
{
    struct forgotten **place = &forgotten;
    while (*place && ((*place)->address != address || (thread && (*place)->thread != thread)))
        place = &(*place)->next;
    return place;
}

static void drop_forgotten(struct forgotten **place)
{
    struct forgotten *one = *place;
    *place = one->next;
    free(one);
    forgotten_count--;
}

/* True if the release is of such a lock. */
static bool releases_forgotten(uint32_t thread, uint64_t address)
{
    struct forgotten **place = find_forgotten(address, thread);
    if (!*place)
        return false;
    if (--(*place)->depth == 0)
        drop_forgotten(place);
    return true;
}

/* ---- Misuse ---- */

/* At most this number of lines on standard error says it. Comments in the trace say it each time. */
#define MOST_SAID 16

/* If events were lost, a thread may hold what it seems not to hold. */
static bool is_certain(void)
{
    return !recording_lost() && forgotten_count < MOST_FORGOTTEN;
}

/* Who holds the lock, for a sentence. */
static const char *holder_name(const struct lock *lock, char text[16])
{
    const struct thread *thread = lock->holder_count ? trace_thread(lock->holders[0].thread) : NULL;
    if (!thread)
        return "nobody";
    snprintf(text, 16, "%.*s", thread->bytes - 1, thread->text);
    return text;
}

static void say_misuse(uint32_t number, const char *verb, const struct lock *lock, uint64_t place, const char *holder)
{
    static unsigned said;
    const struct thread *thread = trace_thread(number);
    const struct site *site = site_of(place);
    char text[2 * NAME_BYTES + 64];
    snprintf(text, sizeof text, "%.*s %s %s at%.*s, which %s", thread->bytes - 1, thread->text, verb, lock->label.name, (int)site->bytes, site->text, holder);
    trace_comment(text);
    if (options.is_quiet || said > MOST_SAID)
        return;
    if (said++ < MOST_SAID)
        fprintf(stderr, "record: %s\n", text);
    else
        fputs("record: and so on: the trace has a comment for each misuse of a lock\n", stderr);
}

/* The step as it was made, which the replay refuses. Then the lock is free, unless the release failed. */
static void release_of_other(struct lock *lock, uint32_t thread, struct release release)
{
    char name[16], holds[32];
    bool reads = lock->holder_count && lock->holders[0].reads;
    snprintf(holds, sizeof holds, "%s holds", holder_name(lock, name));
    say_misuse(thread, "unlocks", lock, release.place, holds);
    trace_lock(trace_thread(thread), reads ? VERB_READ_UNLOCK : VERB_UNLOCK, &lock->label, release.place);
}

void locks_wait_for_own(uint32_t thread, uint64_t address, uint64_t place)
{
    struct lock *lock = find_lock(address);
    if (!lock || !find_holder(lock, thread))
        return;
    say_misuse(thread, "locks", lock, place, "it holds");
    trace_lock(trace_thread(thread), VERB_LOCK, &lock->label, place);
}

/* ---- Acquires and releases ---- */

void locks_acquire(uint32_t thread, uint64_t address, struct acquire acquire)
{
    struct lock *lock = get_lock(address, acquire.kind);
    struct holder *holder = find_holder(lock, thread);
    for (struct forgotten **place; forgotten && *(place = find_forgotten(address, 0));)
        drop_forgotten(place);
    if (holder) {
        holder->depth++;
        return;
    }
    if (!acquire.reads || is_held_to_write(lock))
        drop_holders(lock);
    add_holder(lock, thread, acquire);
}

/* A thread that tries again and again, and does nothing else that a trace has, is written once. */
void locks_fail(uint32_t number, uint64_t address, struct acquire acquire)
{
    struct thread *thread = trace_thread(number);
    uint64_t try = address << 1 | acquire.reads;
    if (thread->failed_try == try && thread->events_then == thread->events)
        return;
    trace_lock(thread, acquire.reads ? VERB_FAILED_READ_TRY : VERB_FAILED_TRY, &get_lock(address, acquire.kind)->label, acquire.place);
    thread->failed_try = try;
    thread->events_then = thread->events;
}

void locks_release(uint32_t thread, uint64_t address, struct release release)
{
    struct lock *lock = find_lock(address);
    struct holder *holder = lock ? find_holder(lock, thread) : NULL;
    if (!holder && releases_forgotten(thread, address))
        return;
    /* A lock of the program's own may be one that another thread releases. One that no line has named may have been taken before the recording. */
    bool may_be_held = (!lock || !lock->label.name) && recording.ring->is_late;
    if (!holder && release.kind != LOCK_USER && is_certain() && !may_be_held) {
        lock = get_lock(address, release.kind);
        release_of_other(lock, thread, release);
    }
    /* A mutex that one thread acquired and another one releases is free then. */
    if (!holder && lock && is_held_to_write(lock))
        holder = &lock->holders[0];
    if (holder && !release.has_failed && --holder->depth == 0)
        remove_holder(lock, holder, release.place);
}

/* ---- The end of a lock ---- */

static void remove_lock(struct lock **place)
{
    struct lock *lock = *place;
    for (uint32_t i = 0; i < lock->holder_count; i++)
        add_forgotten(lock->address, &lock->holders[i]);
    drop_holders(lock);
    *place = lock->next;
    free(lock->label.name);
    free(lock->holders);
    free(lock);
}

/* Where the lock of this address stands. */
static struct lock **place_of(uint64_t address)
{
    struct lock **place = bucket_of(address);
    while (*place && (*place)->address != address)
        place = &(*place)->next;
    return place;
}

/* What is at this address is no more, unless it is a lock that is held. */
static void end_life(uint64_t address)
{
    struct lock **place = place_of(address);
    if (*place && !(*place)->holder_count)
        remove_lock(place);
}

void locks_begin(uint64_t address, uint64_t place)
{
    uint32_t created_at = trace_creator(place);
    end_life(address);
    if (created_at && !find_lock(address))
        add_lock(address, created_at);
}

/* No step of a trace stands for it. The thread's step in its place is one that a replay refuses, so the report has a line and what is held stays. */
static void say_end(uint32_t thread, const char *verb, struct lock *lock, uint64_t at)
{
    char name[16], holds[32];
    if (!lock->holder_count || !at || !is_certain())
        return;
    bool is_own = find_holder(lock, thread);
    snprintf(holds, sizeof holds, "%s holds", is_own ? "it" : holder_name(lock, name));
    say_misuse(thread, verb, lock, at, holds);
    trace_lock(trace_thread(thread), is_own ? VERB_LOCK : VERB_UNLOCK, &lock->label, at);
}

void locks_end(uint32_t thread, uint64_t address, uint64_t at)
{
    struct lock *lock = *place_of(address);
    if (lock)
        say_end(thread, "destroys", lock, at);
    end_life(address);
}

/* A lock of the program's own may have been released in a way that it didn't say. */
void locks_forget(uint64_t address, uint64_t bytes, uint32_t thread, uint64_t at)
{
    for (uint64_t line = address & ~UINT64_C(63); line < address + bytes; line += 64)
        for (struct lock **place = bucket_of(line); *place;) {
            struct lock *lock = *place;
            if (lock->address < address || lock->address >= address + bytes) {
                place = &lock->next;
                continue;
            }
            if (lock->kind != LOCK_USER)
                say_end(thread, "frees", lock, at);
            remove_lock(place);
        }
}
