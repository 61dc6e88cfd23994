/* The detector of a program with POSIX threads, over the proved calls. eraser_detector.h says what each call means. What has to be right here:
 *
 * - each word is in one shard, that of its page, and a shard's handle is only used under its lock (`take`, `leave`)
 * - a thread's handle is only used by its thread, for one call at a time (`enter`, `end`)
 * - each lock has a number of its own while it lives (`number_of`)
 * - an access that is answered without its shard is one that the shard would leave all as it is at (`is_settled`)
 *
 * Locks of this file are taken in one order: `starts`, a detector's `crowd`, its locks' tables, its shards, in the order in which they stand. Only
 * `before_fork` takes several. No call of the program's is made under one of them. */
#ifndef _POSIX_C_SOURCE
#define _POSIX_C_SOURCE 200809L
#endif
#include "eraser_detector.h"

#include <errno.h>
#include <limits.h>
#include <pthread.h>
#include <sched.h>
#include <signal.h>
#include <stdatomic.h>
#include <stdio.h>
#include <stdlib.h>
#include <string.h>

/* ---- Spin locks ---- */

typedef atomic_bool spin;

/* Not put into its callers: what is seldom done, so that what is done at each access stays short, and what asks where it returns to. */
#define APART __attribute__((noinline))
/* Put into its callers, each of which knows more of it. */
#define ALONG static inline __attribute__((always_inline))

/* The holder may have lost its processor, so whoever waits long lets others run. */
APART static void wait_for(spin *lock)
{
    unsigned rounds = 0;
    do {
        while (atomic_load_explicit(lock, memory_order_relaxed))
            if (++rounds % 128 == 0)
                sched_yield();
    } while (atomic_exchange_explicit(lock, true, memory_order_acquire));
}

static inline void take(spin *lock)
{
    if (atomic_exchange_explicit(lock, true, memory_order_acquire))
        wait_for(lock);
}

static inline void leave(spin *lock)
{
    atomic_store_explicit(lock, false, memory_order_release);
}

/* ---- What a detector has ---- */

enum { PAGE = 4096, NOTES = 128, HELD = 64, TABLES = 64, SHARDS = 256, MOST_SHARDS = 65536, MOST_SETS = 1048576 };
enum { BLOCK = 256, BLOCKS = 128, GROUP = 64 }; /* words of a block, of how many blocks a thread remembers accesses, words of a part of a block */
#define ADDRESSES (UINT64_C(1) << 48)

/* Who used a word last, and who before that was another thread. 0 if nobody is known. */
struct note {
    uint64_t word;
    uint32_t last, before;
};

/* A shard under its lock. No two share what a processor keeps of memory. */
struct place {
    _Alignas(128) spin lock;
    eraser_shard shard;
    struct note notes[NOTES]; /* of the word w at w % NOTES, until another word comes there */
    _Alignas(64) atomic_uint_least64_t version; /* one more, under the lock, with each call that may have changed the state of a word */
};

/* Accesses of a block that were settled, a bit for each word: one of a kind, by a thread with these locks, while the block's shard had this version. */
struct settled {
    uint64_t block, locks, version;
    const struct place *place;
    uint64_t words[BLOCK / GROUP];
};

/* Numbers of locks by their addresses, those of one part of the addresses. Where a lock would stand, or behind that, there it is, with no gap before it. */
struct table {
    _Alignas(128) spin lock;
    struct known {
        uintptr_t lock; /* 0: nothing stands here */
        uint32_t number;
    } *known;
    uint32_t *spare; /* numbers of locks that were destroyed, a ring: the oldest is given away first */
    uint32_t room, count, first_spare, spares, given;
};

struct self {
    eraser_detector *detector;
    struct self *next, **link; /* link: what points to it */
    eraser_thread thread;
    uint32_t number;
    unsigned endings, count, ignoring;
    uint64_t locks, given; /* the number of what is held, see `number_locks`, and the last one that was given */
    uint64_t turn; /* how far that turns the places of what is settled */
    uint64_t page; /* of its last access, and where the shard of that is */
    struct place *place;
    uint64_t rest; /* how many settled accesses aren't remembered, see `judge` */
    uint64_t hits, misses, evictions;
    struct {
        uint32_t number, rounds;
        uint64_t below, locks; /* the numbers of what was held before, and with this lock */
    } held[HELD];
    const volatile void *addresses[HELD]; /* of what is held, the oldest first */
    bool writes[HELD];
    struct settled settled[BLOCKS]; /* see `settled_of` */
};

struct eraser_detector {
    uint64_t start; /* no other detector of this process has the same */
    eraser_detector *next, **link; /* the same */
    pthread_key_t key;
    eraser_on_race *on_race;
    void *context;
    unsigned shards; /* a power of two */
    uint64_t spread; /* what a page's number is multiplied by, see `spread_of` */
    spin crowd;
    uint32_t threads; /* how many had a number */
    struct self *selves;
    bool audits, tells;      /* whether it keeps journals, and whether eraser_stop says that they don't settle */
    struct self *ended;      /* of an audit: the threads that ended */
    atomic_uint_least64_t tickets; /* how many were drawn */
    struct table tables[TABLES];
    struct place places[];
};

static spin starts;
static eraser_detector *detectors;
static uint64_t started;

/* Initial-exec: the first use in a thread asks for no memory, so a signal handler may be the first. */
#define OF_THREAD static _Thread_local __attribute__((tls_model("initial-exec")))
OF_THREAD volatile sig_atomic_t in_call; /* a handler leaves it as it was */
OF_THREAD atomic_uint pauses; /* how many are open: a handler may open one, and leave it open */
OF_THREAD volatile sig_atomic_t forks; /* how many forks are under way, one inside the other, for which all locks are taken */
OF_THREAD struct {
    uint64_t start;
    struct self *self;
} mine;

/* ---- What a thread holds ---- */

/* 0 while accesses are ignored: no access is remembered by it. */
enum { IGNORING = 0, NO_LOCKS = 1 };

static uint64_t locks_below(const struct self *self, unsigned at)
{
    return at ? self->held[at - 1].locks : NO_LOCKS;
}

/* A number that what the thread held with the lock at this place has alone. A lock that comes back to where it was last gets the number that it had there. */
static void number_lock(struct self *self, unsigned at)
{
    self->held[at].below = locks_below(self, at);
    self->held[at].locks = ++self->given;
}

/* After each change of what the thread holds. The same number stands for the same locks in the same modes, and no open bracket. */
static void number_locks(struct self *self)
{
    self->locks = self->ignoring ? IGNORING : locks_below(self, self->count);
    self->turn = (self->locks - NO_LOCKS) * 41;
}

/* What shards and seats of an audit are called, so that those of two detectors are told apart. */
static uint64_t name_of(const eraser_detector *e)
{
    return (uintptr_t)e;
}

/* ---- Threads ---- */

/* Begins what is done in a call and outside of one. What it returns goes to `reopen`. */
static sig_atomic_t shut(void)
{
    sig_atomic_t was = in_call;
    in_call = true;
    atomic_signal_fence(memory_order_seq_cst);
    return was;
}

static void reopen(sig_atomic_t was)
{
    atomic_signal_fence(memory_order_seq_cst);
    in_call = was;
}

static void forget(struct self *self)
{
    if (mine.self == self)
        mine.start = 0;
    eraser_thread_free(&self->thread);
    free(self);
}

/* The thread ends. Other destructors may still make calls, so it comes again until the last round but one: an allocator's or a sanitizer's own end is in the
 * last one. A call after that is one of a new thread, whose handle eraser_stop gives back. */
static void end_thread(void *given)
{
    struct self *self = given;
    eraser_detector *e = self->detector;
    if (++self->endings < PTHREAD_DESTRUCTOR_ITERATIONS - 1 && pthread_setspecific(e->key, self) == 0)
        return;
    sig_atomic_t was = shut();
    take(&e->crowd);
    *self->link = self->next;
    if (self->next)
        self->next->link = self->link;
    if (e->audits) {
        self->next = e->ended;
        e->ended = self;
        if (mine.self == self)
            mine.start = 0;
    }
    leave(&e->crowd);
    if (!e->audits)
        forget(self);
    reopen(was);
}

/* A new handle for a thread. Seats are numbered from 0. */
static uint32_t new_thread(eraser_detector *e, eraser_thread *thread, uint32_t number)
{
    return e->audits ? eraser_seat_new(thread, name_of(e), number - 1) : eraser_thread_new(thread, number);
}

/* A thread's first call. Without memory no number is given. */
static uint32_t meet(eraser_detector *e, struct self **found)
{
    struct self *self = malloc(sizeof *self);
    if (!self)
        return ERASER_OUT_OF_MEMORY;
    memset(self, 0, sizeof *self);
    self->detector = e;
    self->locks = self->given = NO_LOCKS;
    self->rest = e->audits ? UINT64_MAX : 0; /* an audit is told of each access */
    self->page = UINT64_MAX; /* none */
    take(&e->crowd);
    self->number = e->threads + 1;
    uint32_t status = new_thread(e, &self->thread, self->number);
    if (status == ERASER_QUIET && pthread_setspecific(e->key, self) != 0)
        status = ERASER_OUT_OF_MEMORY;
    if (status == ERASER_QUIET) {
        e->threads++;
        self->link = &e->selves;
        self->next = e->selves;
        if (self->next)
            self->next->link = &self->next;
        e->selves = self;
    }
    leave(&e->crowd);
    if (status == ERASER_QUIET)
        *found = self;
    else
        forget(self);
    return status;
}

static inline uint32_t end(uint32_t status)
{
    atomic_signal_fence(memory_order_seq_cst);
    in_call = false;
    return status;
}

/* Puts the thread's own record of this detector into `mine`. */
APART static uint32_t find_self(eraser_detector *e)
{
    int error = errno;
    struct self *self = pthread_getspecific(e->key);
    uint32_t status = self ? ERASER_QUIET : meet(e, &self);
    if (status == ERASER_QUIET) {
        mine.self = self;
        mine.start = e->start;
    }
    errno = error;
    return status;
}

/* Begins a call. If it is ERASER_QUIET, `end` ends the call. */
static inline uint32_t begin(const eraser_detector *e)
{
    if (!e)
        return ERASER_EMPTY_HANDLE;
    if (in_call || atomic_load_explicit(&pauses, memory_order_relaxed))
        return ERASER_BUSY;
    in_call = true;
    atomic_signal_fence(memory_order_seq_cst);
    return ERASER_QUIET;
}

/* In a call: whether `mine` is the thread's own record of this detector. It is, if its last call was for that one. */
static inline bool is_known(const eraser_detector *e)
{
    return mine.start == e->start;
}

/* Begins a call that is of the thread's own record, and finds that. */
static inline uint32_t enter(eraser_detector *e, struct self **found)
{
    uint32_t status = begin(e);
    if (status != ERASER_QUIET)
        return status;
    status = is_known(e) ? ERASER_QUIET : find_self(e);
    if (status != ERASER_QUIET)
        return end(status);
    *found = mine.self;
    return ERASER_QUIET;
}

void eraser_pause(void)
{
    atomic_fetch_add_explicit(&pauses, 1, memory_order_relaxed);
}

void eraser_resume(void)
{
    atomic_fetch_sub_explicit(&pauses, 1, memory_order_relaxed);
}

uint32_t eraser_self(eraser_detector *e)
{
    struct self *self;
    if (enter(e, &self) != ERASER_QUIET)
        return 0;
    end(ERASER_QUIET);
    return self->number;
}

/* ---- Accesses ---- */

static struct place *place_of(eraser_detector *e, uint64_t address)
{
    return &e->places[address / PAGE * e->spread >> 40 & (e->shards - 1)];
}

/* Where the part of the bytes that is on the first byte's page ends. */
static uint64_t end_of_part(uint64_t at, uint64_t end)
{
    uint64_t page_end = (at | (PAGE - 1)) + 1;
    return page_end < end ? page_end : end;
}

static bool is_in_range(uint64_t first, uint64_t size)
{
    return first < ADDRESSES && size <= ADDRESSES - first;
}

/* Notes that a thread used a word, and answers which other one did so last. */
static uint32_t note(struct place *place, uint64_t word, uint32_t thread)
{
    struct note *note = &place->notes[word % NOTES];
    if (note->word != word)
        *note = (struct note){word, thread, 0};
    else if (note->last != thread)
        note->before = note->last, note->last = thread;
    return note->before;
}

/* ---- Settled accesses ----
 *
 * An access that left its word's state as it was leaves it so again, and is quiet, as long as the word has that state and the access is by the same
 * thread, of the same kind, with the same locks. (er_online proves that any number of these may be left out: settled_accesses_may_be_left_out.)
 * A thread remembers such accesses, with the version of their shard. Each call that may change a word's state changes the version before it leaves the shard's lock. So if the version is still the
 * remembered one when it is loaded, no state has changed between the access that is remembered and that load. The access is placed there, among the calls
 * of the shard, where it would change nothing. So it holds for each word by itself: what happened to it before the access, in whatever thread, has published
 * its version, and the load can't miss that; what happens after it changes the version later. Of calls of several shards there may be no one order in which
 * all of these accesses are placed so. Only the shard's note of who used the word last isn't renewed. */

static inline uint64_t version_of(const struct place *place)
{
    return atomic_load_explicit(&place->version, memory_order_acquire);
}

/* Under the shard's lock. */
static inline void change_version(struct place *place)
{
    atomic_store_explicit(&place->version, version_of(place) + 1, memory_order_release);
}

/* Where a thread remembers accesses of a kind to the words around one. Those of a block that have another kind or other locks have other places. */
static inline struct settled *settled_of(struct self *self, uint64_t word, bool writes)
{
    return &self->settled[(word / BLOCK + writes * (BLOCKS / 2) + self->turn) % BLOCKS];
}

static inline unsigned group_of(uint64_t word)
{
    return word / GROUP % (BLOCK / GROUP);
}

/* The bits of the words from one to another of its group. */
static inline uint64_t bits_of(uint64_t first, uint64_t last)
{
    return (UINT64_MAX >> (GROUP - 1 - (last - first))) << first % GROUP;
}

static inline bool is_of_group(uint64_t first, uint64_t last)
{
    return first / GROUP == last / GROUP;
}

/* Whether an access of the words from one to another of its group may be left out. No word is remembered that has no address. */
ALONG bool is_settled(struct self *self, uint64_t first, uint64_t last, bool writes)
{
    const struct settled *known = settled_of(self, first, writes);
    if (known->block != first / BLOCK || known->locks != self->locks)
        return false;
    uint64_t words = known->words[group_of(first)], bits = bits_of(first, last);
    bool are = (first ^ last) <= 1 ? words >> first % GROUP & 1 && words >> last % GROUP & 1 : (words & bits) == bits;
    if (!are || known->version != version_of(known->place))
        return false;
    self->hits++;
    return true;
}

/* To remember an access and to look for it takes some 80 instructions, a quarter of an access. If the words that a thread uses are too many for that, it
 * gains nothing, and rests for 64 times as long. */
APART static void judge(struct self *self)
{
    if (3 * self->hits < self->misses)
        self->rest = 64 * self->misses;
    self->hits = self->misses = self->evictions = 0;
}

/* Of an access of these words that was settled, under the shard's lock. */
APART static void remember(struct self *self, const struct place *place, uint64_t first, uint64_t last, bool writes)
{
    struct settled *known = settled_of(self, first, writes);
    uint64_t block = first / BLOCK, version = version_of(place);
    self->misses++;
    if (known->block != block || known->version != version || known->locks != self->locks) {
        if (known->locks && known->block != block && ++self->evictions == BLOCKS / 2)
            judge(self);
        *known = (struct settled){.block = block, .locks = self->locks, .version = version, .place = place};
    }
    if (is_of_group(first, last))
        known->words[group_of(first)] |= bits_of(first, last);
}

/* ---- Parts of accesses ---- */

/* The first race of an access: its word's address, UINT64_MAX if there is none, and the other thread. */
struct found {
    uint64_t word;
    uint32_t other;
};

/* Under the shard's lock, so tickets rise in each shard as in each thread. */
static uint64_t draw(eraser_detector *e)
{
    return atomic_fetch_add_explicit(&e->tickets, 1, memory_order_relaxed);
}

/* Each word's access of a part, under a ticket of its own. It answers as eraser_access_span does. */
APART static uint32_t record_words(eraser_detector *e, struct place *place, struct self *self, uint64_t first, uint64_t last, bool writes, uint64_t *first_race)
{
    for (uint64_t word = first; word <= last; word++) {
        uint32_t status = eraser_record(&place->shard, &self->thread, draw(e), word * 4, writes);
        if (status == ERASER_RACE && *first_race == UINT64_MAX)
            *first_race = word * 4;
        if (status > ERASER_RACE)
            return status;
    }
    return *first_race == UINT64_MAX ? ERASER_QUIET : ERASER_RACE;
}

APART static struct place *find_place(eraser_detector *e, struct self *self, uint64_t page)
{
    self->page = page;
    return self->place = place_of(e, page * PAGE);
}

/* One page's part of an access, and its first race. */
ALONG uint32_t access_part(eraser_detector *e, struct self *self, uint64_t at, uint64_t size, bool writes, struct found *found)
{
    uint64_t first_race = UINT64_MAX, first = at / 4, last = (at + size - 1) / 4;
    uint32_t other = 0;
    uint8_t settled = 0;
    struct place *place = self->page == at / PAGE ? self->place : find_place(e, self, at / PAGE);
    take(&place->lock);
    uint32_t status = e->audits ? record_words(e, place, self, first, last, writes, &first_race)
                                : eraser_access_span(&place->shard, &self->thread, at, size, writes, &first_race, &settled);
    if (settled && self->rest)
        self->rest--;
    else if (settled)
        remember(self, place, first, last, writes);
    else if (status != ERASER_IGNORED)
        change_version(place);
    if (status != ERASER_IGNORED)
        for (uint64_t word = first; word <= last; word++) {
            uint32_t before = note(place, word, self->number);
            if (word == first_race / 4)
                other = before;
        }
    leave(&place->lock);
    *found = (struct found){first_race, other};
    return status;
}

/* Calls on_race, and returns the status of the access. No thread ends there, which would leave what it holds locked, and errno is the program's. */
APART static uint32_t report(eraser_detector *e, const struct self *self, struct eraser_race race, uint64_t word, uint32_t other, uint32_t status)
{
    race.word = (const volatile void *)(uintptr_t)word;
    race.thread = self->number;
    race.other = other;
    race.lock_count = self->count;
    race.locks = self->addresses;
    race.lock_writes = self->writes;
    int error = errno, cancels;
    pthread_setcancelstate(PTHREAD_CANCEL_DISABLE, &cancels);
    e->on_race(e->context, &race);
    pthread_setcancelstate(cancels, &cancels);
    errno = error;
    return status <= ERASER_IGNORED ? ERASER_RACE : status;
}

ALONG uint32_t end_access(eraser_detector *e, const struct self *self, uint64_t at, uint64_t size, bool writes, const void *site, struct found found,
    uint32_t status)
{
    if (found.word != UINT64_MAX) {
        struct eraser_race race = {.address = (const volatile void *)(uintptr_t)at, .size = size, .writes = writes, .site = site};
        status = report(e, self, race, found.word, found.other, status);
    }
    return end(status);
}

/* The rest of a call: an access that isn't left out. Its bytes are any, and the thread may not be known yet. */
APART static uint32_t access_bytes(eraser_detector *e, uint64_t first, uint64_t size, bool writes, const void *site)
{
    struct found found = {UINT64_MAX, 0}, part;
    uint32_t status = is_known(e) ? ERASER_QUIET : find_self(e);
    if (status != ERASER_QUIET)
        return end(status);
    if (!is_in_range(first, size))
        return end(ERASER_ADDRESS_OUT_OF_RANGE);
    for (uint64_t at = first, last = first + size, next; at < last && status <= ERASER_IGNORED; at = next) {
        next = end_of_part(at, last);
        status = access_part(e, mine.self, at, next - at, writes, &part);
        if (found.word == UINT64_MAX)
            found = part;
    }
    return end_access(e, mine.self, first, size, writes, site, found, status);
}

/* The same by a thread that is known, of bytes that most often are on one page. */
APART static uint32_t access_page(eraser_detector *e, uint64_t at, uint64_t size, bool writes, const void *site)
{
    struct found found;
    struct self *self = mine.self;
    if (size - 1 >= PAGE - at % PAGE || at >= ADDRESSES)
        return access_bytes(e, at, size, writes, site);
    uint32_t status = access_part(e, self, at, size, writes, &found);
    return end_access(e, self, at, size, writes, site, found, status);
}

/* The same of more words, which may be left out. */
APART static uint32_t access_words(eraser_detector *e, uint64_t at, uint64_t size, bool writes, const void *site)
{
    uint64_t first = at / 4, last = (at + size - 1) / 4;
    bool is = size - 1 < 4 * GROUP && is_of_group(first, last) && is_settled(mine.self, first, last, writes);
    return is ? end(ERASER_QUIET) : access_page(e, at, size, writes, site);
}

/* Nothing else is called at an access of a word or a pair that is left out, since that is what most are. */
ALONG uint32_t use(eraser_detector *e, uint64_t at, uint64_t size, bool writes, const void *site)
{
    uint64_t first = at / 4, last = (at + size - 1) / 4;
    uint32_t status = begin(e);
    if (status != ERASER_QUIET)
        return status;
    if (!is_known(e))
        return access_bytes(e, at, size, writes, site);
    if (mine.self->rest)
        return access_page(e, at, size, writes, site);
    if (size - 1 >= 8 || (first ^ last) > 1)
        return access_words(e, at, size, writes, site);
    return is_settled(mine.self, first, last, writes) ? end(ERASER_QUIET) : access_page(e, at, size, writes, site);
}

APART uint32_t eraser_read(eraser_detector *e, const volatile void *address, size_t size)
{
    return use(e, (uintptr_t)address, size, false, __builtin_return_address(0));
}

APART uint32_t eraser_write(eraser_detector *e, const volatile void *address, size_t size)
{
    return use(e, (uintptr_t)address, size, true, __builtin_return_address(0));
}

/* Of one page. The notes may stay: a race needs another thread after this, and then that one is the last. */
static uint32_t free_part(eraser_detector *e, struct self *self, uint64_t at, uint64_t end)
{
    struct place *place = place_of(e, at);
    take(&place->lock);
    uint32_t status = e->audits ? eraser_record_reset(&place->shard, &self->thread, draw(e), at, end - at) : eraser_reset(&place->shard, at, end - at);
    change_version(place);
    leave(&place->lock);
    return status;
}

uint32_t eraser_freeing(eraser_detector *e, const volatile void *address, size_t size)
{
    struct self *self;
    uint32_t status = enter(e, &self);
    if (status != ERASER_QUIET)
        return status;
    uint64_t first = (uintptr_t)address, last = first + size;
    if (!is_in_range(first, size))
        return end(ERASER_ADDRESS_OUT_OF_RANGE);
    for (uint64_t at = first; at < last && status == ERASER_QUIET; at = end_of_part(at, last))
        status = free_part(e, self, at, end_of_part(at, last));
    return end(status);
}

uint32_t eraser_look(eraser_detector *e, const volatile void *address)
{
    struct self *self;
    uint32_t status = enter(e, &self);
    if (status != ERASER_QUIET)
        return status;
    struct place *place = place_of(e, (uintptr_t)address);
    take(&place->lock);
    status = eraser_state(&place->shard, (uintptr_t)address);
    leave(&place->lock);
    return end(status);
}

uint32_t eraser_ignore_begin(eraser_detector *e)
{
    struct self *self;
    uint32_t status = enter(e, &self);
    if (status != ERASER_QUIET)
        return status;
    status = eraser_thread_ignore_on(&self->thread);
    self->ignoring += status == ERASER_QUIET;
    number_locks(self);
    return end(status);
}

uint32_t eraser_ignore_end(eraser_detector *e)
{
    struct self *self;
    uint32_t status = enter(e, &self);
    if (status != ERASER_QUIET)
        return status;
    status = eraser_thread_ignore_off(&self->thread);
    self->ignoring -= status == ERASER_QUIET;
    number_locks(self);
    return end(status);
}

/* ---- Locks ---- */

static uint64_t mixed(uintptr_t lock)
{
    return (uint64_t)lock * UINT64_C(0x9e3779b97f4a7c15);
}

static struct table *table_of(eraser_detector *e, uintptr_t lock)
{
    return &e->tables[mixed(lock) >> 58];
}

static uint32_t home_of(const struct table *table, uintptr_t lock)
{
    return (uint32_t)(mixed(lock) >> 24) & (table->room - 1);
}

/* Where a lock stands, or the gap where it may be put. There is a gap: at most half of the room is taken. */
static uint32_t find(const struct table *table, uintptr_t lock)
{
    uint32_t at = home_of(table, lock);
    while (table->known[at].lock && table->known[at].lock != lock)
        at = (at + 1) & (table->room - 1);
    return at;
}

/* Twice the room. As many numbers may be spare as there were locks at a time, which is fewer than the room. */
static bool grow(struct table *table)
{
    int error = errno;
    struct table grown = {.room = table->room ? 2 * table->room : 16};
    grown.known = malloc(grown.room * sizeof *grown.known);
    grown.spare = malloc(grown.room * sizeof *grown.spare);
    errno = error;
    if (!grown.known || !grown.spare) {
        free(grown.known);
        free(grown.spare);
        return false;
    }
    memset(grown.known, 0, grown.room * sizeof *grown.known);
    for (uint32_t at = 0; at < table->room; at++)
        if (table->known[at].lock)
            grown.known[find(&grown, table->known[at].lock)] = table->known[at];
    for (uint32_t nth = 0; nth < table->spares; nth++)
        grown.spare[nth] = table->spare[(table->first_spare + nth) & (table->room - 1)];
    free(table->known);
    free(table->spare);
    table->room = grown.room;
    table->first_spare = 0;
    table->known = grown.known;
    table->spare = grown.spare;
    return true;
}

/* Whether a lock has a number. Where it stands, or may be put. */
static bool has_number(const struct table *table, uintptr_t lock, uint32_t *at)
{
    if (!table->room)
        return false;
    *at = find(table, lock);
    return table->known[*at].lock != 0;
}

/* A number that no other lock has. Those of one table are TABLES apart. */
static uint32_t new_number(eraser_detector *e, struct table *table)
{
    if (!table->spares)
        return table->given++ * TABLES + (uint32_t)(table - e->tables);
    uint32_t number = table->spare[table->first_spare];
    table->first_spare = (table->first_spare + 1) & (table->room - 1);
    table->spares--;
    return number;
}

/* The number of a lock, a new one if it has none. Only a new one may want memory. */
static uint32_t number_of(eraser_detector *e, uintptr_t lock, uint32_t *number)
{
    struct table *table = table_of(e, lock);
    uint32_t status = ERASER_QUIET, at = 0;
    take(&table->lock);
    if (!has_number(table, lock, &at)) {
        if (2 * (table->count + 1) <= table->room || grow(table)) {
            at = find(table, lock);
            table->known[at] = (struct known){lock, new_number(e, table)};
            table->count++;
        } else {
            status = ERASER_OUT_OF_MEMORY;
        }
    }
    if (status == ERASER_QUIET)
        *number = table->known[at].number;
    leave(&table->lock);
    return status;
}

/* What stands behind the gap moves up, where it may, so that no gap stands between a lock and where it would stand. */
static void close_gap(struct table *table, uint32_t gap)
{
    uint32_t last = table->room - 1;
    for (uint32_t at = (gap + 1) & last; table->known[at].lock; at = (at + 1) & last)
        if (((at - home_of(table, table->known[at].lock)) & last) >= ((at - gap) & last)) {
            table->known[gap] = table->known[at];
            gap = at;
        }
    table->known[gap].lock = 0;
}

uint32_t eraser_destroying(eraser_detector *e, const volatile void *lock)
{
    struct self *self;
    uint32_t status = enter(e, &self);
    if (status != ERASER_QUIET)
        return status;
    struct table *table = table_of(e, (uintptr_t)lock);
    uint32_t at;
    take(&table->lock);
    if (has_number(table, (uintptr_t)lock, &at)) {
        table->spare[(table->first_spare + table->spares++) & (table->room - 1)] = table->known[at].number;
        table->count--;
        close_gap(table, at);
    }
    leave(&table->lock);
    return end(ERASER_QUIET);
}

/* Which of the held locks it is, or their count. */
static unsigned place_held(const struct self *self, const volatile void *lock)
{
    unsigned at = self->count;
    for (unsigned other = 0; other < self->count; other++)
        if (self->addresses[other] == lock)
            at = other;
    return at;
}

uint32_t eraser_locked(eraser_detector *e, const volatile void *lock, bool writes)
{
    struct self *self;
    uint32_t status = enter(e, &self), number;
    if (status != ERASER_QUIET)
        return status;
    unsigned at = place_held(self, lock);
    if (at < self->count) {
        if (self->writes[at] != writes)
            return end(ERASER_WRONG_MODE);
        self->held[at].rounds++;
        return end(ERASER_QUIET);
    }
    if (at == HELD)
        return end(ERASER_HELD_FULL);
    if (!lock)
        return end(ERASER_ADDRESS_OUT_OF_RANGE);
    status = number_of(e, (uintptr_t)lock, &number);
    if (status == ERASER_QUIET)
        status = eraser_acquire(&self->thread, number, writes);
    if (status == ERASER_QUIET) {
        bool was_here = self->held[at].number == number && self->writes[at] == writes && self->held[at].below == locks_below(self, at);
        self->held[at].number = number;
        self->held[at].rounds = 1;
        self->addresses[at] = lock;
        self->writes[at] = writes;
        if (!was_here)
            number_lock(self, at);
        self->count++;
        number_locks(self);
    }
    return end(status);
}

uint32_t eraser_unlocking(eraser_detector *e, const volatile void *lock)
{
    struct self *self;
    uint32_t status = enter(e, &self);
    if (status != ERASER_QUIET)
        return status;
    unsigned at = place_held(self, lock);
    if (at == self->count)
        return end(ERASER_NOT_HELD);
    if (self->held[at].rounds > 1) {
        self->held[at].rounds--;
        return end(ERASER_QUIET);
    }
    status = eraser_release(&self->thread, self->held[at].number, self->writes[at]);
    if (status == ERASER_QUIET) {
        self->count--;
        for (; at < self->count; at++) {
            self->held[at] = self->held[at + 1];
            self->addresses[at] = self->addresses[at + 1];
            self->writes[at] = self->writes[at + 1];
            number_lock(self, at);
        }
        number_locks(self);
    }
    return end(status);
}

/* ---- Forks ---- */

typedef void for_lock(spin *lock);

static void for_each_lock(for_lock *do_it)
{
    do_it(&starts);
    for (eraser_detector *e = detectors; e; e = e->next) {
        do_it(&e->crowd);
        for (unsigned at = 0; at < TABLES; at++)
            do_it(&e->tables[at].lock);
        for (unsigned at = 0; at < e->shards; at++)
            do_it(&e->places[at].lock);
    }
}

/* The child has a copy in which nobody is at work. A fork inside a call can't wait for what that call holds. A handler may fork between this and the fork
 * that it is for: then the locks are taken already. */
static void before_fork(void)
{
    if (forks)
        forks++;
    if (in_call)
        return;
    in_call = true;
    for_each_lock(take);
    forks = 1;
}

static void after_fork(void)
{
    if (!forks || --forks)
        return;
    for_each_lock(leave);
    in_call = false;
}

/* The other threads are not in the child. A call that needs no lock may have been under way in one, so nobody uses what it had, and it isn't freed. */
static void begin_child(void)
{
    for (eraser_detector *e = forks ? detectors : NULL; e; e = e->next) {
        e->selves = pthread_getspecific(e->key);
        if (e->selves) {
            e->selves->link = &e->selves;
            e->selves->next = NULL;
        }
    }
    after_fork();
}

#ifdef ERASER_OWN_PAGES
enum { CHILD_GOES_ON = false };

/* What the other threads of the parent had locked is locked in the child for ever, so nothing of its detectors is used there. */
void eraser_forget(void)
{
    for (eraser_detector *e = detectors; e; e = e->next)
        pthread_key_delete(e->key);
    detectors = NULL;
    leave(&starts);
    mine.start = 0;
    eraser_forget_pages();
}
#else
enum { CHILD_GOES_ON = true };
#endif

/* Whether forks are watched, from the first detector on. Under no lock: a fork that is under way may keep this waiting, and its child would find the lock
 * taken for ever. Two threads may both come here, and then each fork counts as two, one inside the other. */
static bool watch_forks(void)
{
    static atomic_bool are_watched = !CHILD_GOES_ON;
    if (!are_watched && pthread_atfork(before_fork, after_fork, begin_child) == 0)
        are_watched = true;
    return are_watched;
}

/* ---- Audits ---- */

static size_t count_of(const struct self *first)
{
    size_t count = 0;
    for (const struct self *self = first; self; self = self->next)
        count++;
    return count;
}

/* The handles of these threads go into `seats`, or come back from there. */
static eraser_thread *move_seats(struct self *first, eraser_thread *seats, bool back)
{
    for (struct self *self = first; self; self = self->next, seats++)
        *(back ? &self->thread : seats) = *(back ? seats : &self->thread);
    return seats;
}

static void move_all(eraser_detector *e, eraser_shard *shards, eraser_thread *seats, bool back)
{
    for (unsigned at = 0; at < e->shards; at++)
        *(back ? &e->places[at].shard : &shards[at]) = *(back ? &shards[at] : &e->places[at].shard);
    move_seats(e->ended, move_seats(e->selves, seats, back), back);
}

/* The proved call wants the handles side by side. */
static uint32_t settle(eraser_detector *e, uint64_t *steps)
{
    int error = errno;
    size_t threads = count_of(e->selves) + count_of(e->ended);
    eraser_shard *shards = malloc(e->shards * sizeof *shards);
    eraser_thread *seats = malloc((threads + 1) * sizeof *seats);
    uint32_t status = ERASER_OUT_OF_MEMORY;
    if (shards && seats) {
        move_all(e, shards, seats, false);
        status = eraser_settle_handles(name_of(e), e->threads, shards, e->shards, seats, threads, steps);
        move_all(e, shards, seats, true);
    }
    free(shards);
    free(seats);
    errno = error;
    return status;
}

uint32_t eraser_settle(eraser_detector *e, uint64_t *steps)
{
    uint64_t none;
    uint32_t status = begin(e);
    if (status != ERASER_QUIET)
        return status;
    take(&e->crowd);
    status = settle(e, steps ? steps : &none);
    leave(&e->crowd);
    return end(status);
}

/* ---- Start and stop ---- */

static void forget_all(struct self *first)
{
    for (struct self *self = first, *next; self; self = next) {
        next = self->next;
        forget(self);
    }
}

static void give_back(eraser_detector *e)
{
    for (unsigned at = 0; at < e->shards; at++)
        eraser_shard_free(&e->places[at].shard);
    for (unsigned at = 0; at < TABLES; at++) {
        free(e->tables[at].known);
        free(e->tables[at].spare);
    }
    free(e);
}

/* All bits of a page's number count: an allocator may give each thread memory that begins at a multiple of many pages. To an audit of n shards the page p
 * belongs to the shard in place p % n. */
static uint64_t spread_of(const eraser_detector *e)
{
    return e->audits ? UINT64_C(1) << 40 : UINT64_C(0x9e3779b97f4a7c15);
}

eraser_detector *eraser_start(const struct eraser_options *options)
{
    static const struct eraser_options usual;
    if (!options)
        options = &usual;
    uint32_t sets = options->max_sets ? options->max_sets : MOST_SETS;
    unsigned asked = options->shards ? options->shards : SHARDS, shards = 1;
    if (asked > MOST_SHARDS || sets > MOST_SETS) {
        errno = EINVAL;
        return NULL;
    }
    while (shards < asked)
        shards *= 2;
    size_t size = sizeof(eraser_detector) + shards * sizeof(struct place);
    eraser_detector *e = aligned_alloc(_Alignof(struct place), size);
    if (!e) {
        errno = ENOMEM;
        return NULL;
    }
    memset(e, 0, size);
    const char *audit = getenv("ERASER_AUDIT");
    e->tells = audit && *audit;
    e->audits = options->audit || e->tells;
    e->shards = shards;
    e->spread = spread_of(e);
    e->on_race = options->on_race ? options->on_race : eraser_print;
    e->context = options->context;
    int error = 0;
    for (unsigned at = 0; at < shards && error == 0; at++)
        if ((e->audits ? eraser_journal_new(&e->places[at].shard, name_of(e), sets) : eraser_shard_new(&e->places[at].shard, sets)) != ERASER_QUIET)
            error = ENOMEM;
    if (error == 0)
        error = pthread_key_create(&e->key, end_thread);
    if (error != 0) {
        give_back(e);
        errno = error;
        return NULL;
    }
    if (!watch_forks()) {
        pthread_key_delete(e->key);
        give_back(e);
        errno = ENOMEM;
        return NULL;
    }
    sig_atomic_t was = shut();
    take(&starts);
    e->start = ++started;
    e->link = &detectors;
    e->next = detectors;
    if (e->next)
        e->next->link = &e->next;
    detectors = e;
    leave(&starts);
    reopen(was);
    return e;
}

void eraser_stop(eraser_detector *e)
{
    if (!e)
        return;
    sig_atomic_t was = shut();
    take(&starts);
    *e->link = e->next;
    if (e->next)
        e->next->link = e->link;
    leave(&starts);
    pthread_key_delete(e->key);
    uint64_t steps;
    uint32_t why = e->tells ? settle(e, &steps) : ERASER_QUIET;
    if (why != ERASER_QUIET)
        fprintf(stderr, "eraser: the calls of %u threads don't settle: %s\n", (unsigned)e->threads, eraser_text(why));
    forget_all(e->selves);
    forget_all(e->ended);
    give_back(e);
    reopen(was);
}

/* ---- Words for people ---- */

const char *eraser_text(uint32_t status)
{
    static const char *const texts[] = {
        "quiet", "race", "ignored", "already held", "not held", "held in the other mode", "ignore not on", "ignore too deep", "too many locks held",
        "size too large", "address out of range", "journal full", "table full", "out of memory", "foreign seat", "too many threads", "level too high",
        "level lock", "empty handle", "wrong handle", "virgin", "exclusive", "shared", "shared-modified",
        "seat twice", "seat missing", "order", "entries", "answer", "foreign shard",
    };
    return status < sizeof texts / sizeof *texts ? texts[status] : status == ERASER_BUSY ? "busy" : "no status";
}

void eraser_print(void *context, const struct eraser_race *race)
{
    char line[256], other[32] = "";
    (void)context;
    if (race->other)
        snprintf(other, sizeof other, ", after thread %u", race->other);
    int length = snprintf(line, sizeof line, "race: thread %u %s %zu bytes at %p, the word at %p%s, holding %zu locks, called from %p\n", race->thread,
        race->writes ? "writes" : "reads", race->size, (void *)(uintptr_t)race->address, (void *)(uintptr_t)race->word, other, race->lock_count,
        (const void *)((const char *)race->site - 1));
    fwrite(line, 1, (size_t)length, stderr);
}
