/* Online: an event becomes a call of the detector, and the ring gets the races alone. The detector is the library for C (docs/LIBRARY.md), whose
 * calls find the thread, its locks and the word's shard. Here is what a program's events need beside that: who holds which lock for how often and since
 * which call, locks that another thread releases, and the lives of locks in memory that changes hands. */
#include "emit.h"

#if IS_ONLINE

#include <errno.h>
#include <pthread.h>
#include <signal.h>
#include <string.h>
#include <sys/syscall.h>
#include <time.h>
#include <ucontext.h>
#include <unistd.h>

#include "../../capi/eraser_detector.h"
#define ERASER_OWN_PAGES
#include "../../capi/eraser_memory.h"
#include "blocks.h"
#include "marks.h"
#include "releases.h"

/* Locks that a thread holds and that are known here. The detector knows 64 of them. */
#define MOST_HELD 128

/* A lock that the thread holds, and the call that took it. */
struct held {
    uint64_t lock, place;
    uint64_t since; /* how many releases by other threads there were before it */
    uint32_t stack, rounds;
    bool writes;
    bool is_known;  /* to the detector. If it has refused the lock, its release is all the same this thread's own */
};

/* What a thread knows of itself beside its `self`, in memory of the detector. */
struct own {
    struct held held[MOST_HELD];
    unsigned count;
    unsigned beyond;    /* how many times it has taken locks for which there was no room */
    unsigned ignoring;  /* depth of its ignore brackets */
    uint64_t released;  /* how many releases of other threads' locks it has looked at */
    uint32_t refusal;   /* of a part of memory that changes hands, or ERASER_QUIET */
    uint64_t site;      /* of the access of the event, and the stack pointer of its hook */
    uintptr_t pointer;
    uint64_t ticket;    /* of the last race, and the lane in which it is */
    uint32_t lane;
    struct {
        volatile int number;
        siginfo_t info;
        sigset_t mask;  /* what was blocked before */
    } deferred;
};

/* Small, since a program that isn't started with this library may have little room for it. */
static __thread struct {
    struct own *own;
    bool is_inside;  /* the detector is at work on an event */
    bool has_ended;  /* the thread counts as ended, and what it still does is not watched */
    bool may_be_cancelled; /* at any instruction, as it has asked */
    bool handles;          /* it is in a handler, or has left one by longjmp. If it interrupted a call that waits, it may be cancelled there too */
} mine __attribute__((tls_model("initial-exec")));

static eraser_detector *detector;
static long owner; /* the process of the detector */

FIND_EARLY(sigaction)
FIND_EARLY(pthread_setcanceltype)

/* ---- Locks ---- */

static struct held *find_held(uint64_t lock)
{
    struct own *own = mine.own;
    for (struct held *held = own->held; held < own->held + own->count; held++)
        if (held->lock == lock)
            return held;
    return NULL;
}

static const volatile void *at(uint64_t address)
{
    return (const volatile void *)(uintptr_t)address;
}

/* The thread holds the lock no more, however often it took it. */
static void drop_held(struct held *held)
{
    struct own *own = mine.own;
    if (held->is_known)
        eraser_unlocking(detector, at(held->lock));
    memmove(held, held + 1, (size_t)(own->held + --own->count - held) * sizeof *held);
}

/* Each thread looks here before its next event, if there was a release by a thread that doesn't hold the lock: whoever held it to write holds it no more. */
static __attribute__((noinline)) void look_at_releases(uint64_t count)
{
    struct own *own = mine.own;
    own->released = count;
    for (unsigned nth = own->count; nth-- > 0;)
        if (own->held[nth].writes && last_release(own->held[nth].lock) > own->held[nth].since)
            drop_held(&own->held[nth]);
}

/* A lock that is held in the other mode is held once more in that one, as its release will be. */
static uint32_t take_lock(uint64_t lock, uint64_t place, bool writes)
{
    struct own *own = mine.own;
    struct held *held = find_held(lock);
    if (held) {
        held->rounds++;
        return ERASER_QUIET;
    }
    if (own->count == MOST_HELD) {
        own->beyond++;
        return ERASER_HELD_FULL;
    }
    uint32_t status = mark_lock(lock) ? eraser_locked(detector, at(lock), writes) : ERASER_OUT_OF_MEMORY;
    uint32_t stack = place ? stack_look_from(own->pointer, place) : 0;
    own->held[own->count++] = (struct held){lock, place, own->released, stack, 1, writes, status == ERASER_QUIET};
    return status;
}

static uint32_t release_lock(uint64_t lock)
{
    struct held *held = find_held(lock);
    if (held) {
        if (--held->rounds == 0)
            drop_held(held);
    } else if (mine.own->beyond) {
        mine.own->beyond--;
    } else if (!mark_lock(lock) || !note_release(lock)) {
        return ERASER_OUT_OF_MEMORY;
    }
    return ERASER_QUIET;
}

static uint32_t destroy_lock(uint64_t lock)
{
    forget_release(lock);
    return eraser_destroying(detector, at(lock));
}

/* What is there is another lock from now on, unless this thread holds it. */
static uint32_t end_lock(uint64_t lock)
{
    return find_held(lock) ? ERASER_QUIET : destroy_lock(lock);
}

/* Memory with locks is given back: also those that this thread holds are no more. */
static void end_locks(uint64_t begin, uint64_t end)
{
    for (uint64_t lock = begin; lock < end; lock++) {
        struct held *held = find_held(lock);
        if (held)
            drop_held(held);
        destroy_lock(lock);
    }
}

/* ---- Memory ---- */

static bool reuse(uint64_t begin, uint64_t end)
{
    uint32_t status = eraser_freeing(detector, at(begin), end - begin);
    if (status != ERASER_QUIET)
        mine.own->refusal = status;
    return status == ERASER_QUIET;
}

static uint32_t take_reuse(uint64_t address, uint64_t size)
{
    mine.own->refusal = ERASER_QUIET;
    marks_visit(address, size, reuse, end_locks);
    return mine.own->refusal;
}

/* ---- Ignore brackets ---- */

static uint32_t change_ignoring(bool begins)
{
    uint32_t status = ERASER_QUIET;
    if (begins && !mine.own->ignoring++)
        status = eraser_ignore_begin(detector);
    else if (!begins && mine.own->ignoring && !--mine.own->ignoring)
        status = eraser_ignore_end(detector);
    return status;
}

/* ---- Signals ---- */

static void set_inside(bool is_inside)
{
    __atomic_signal_fence(__ATOMIC_SEQ_CST);
    *(volatile bool *)&mine.is_inside = is_inside;
    __atomic_signal_fence(__ATOMIC_SEQ_CST);
}

static void set_mask(const sigset_t *mask)
{
    syscall(SYS_rt_sigprocmask, SIG_SETMASK, mask, NULL, NSIG / 8);
}

/* Nor is the thread cancelled then, by a signal that sigfillset leaves out. Gives what was blocked before. */
static sigset_t block_signals(void)
{
    sigset_t all, before;
    memset(&all, 0xff, sizeof all);
    syscall(SYS_rt_sigprocmask, SIG_SETMASK, &all, &before, NSIG / 8);
    return before;
}

/* ---- Races ---- */

static void send(enum event_kind kind, uint32_t stack, uint32_t size, uint64_t first, uint64_t second)
{
    struct draft draft;
    if (!ring_draw(&draft))
        return;
    mine.own->ticket = draft.ticket;
    mine.own->lane = draft.course->lane;
    if (kind == EVENT_RACE_WORD) {
        second = draft.course->lane;
        atomic_store_explicit(&attached->ring->lanes[second].answer, ANSWER_NONE, memory_order_relaxed);
    }
    ring_publish(&draft, kind, stack, size, first, second);
}

static void on_race(void *nothing, const struct eraser_race *race)
{
    (void)nothing;
    if (!self.number)
        self.number = race->thread;
    struct block block;
    send(EVENT_RACE_WORD, 0, race->other, (uintptr_t)race->word, 0);
    if (blocks_find((uintptr_t)race->address, &block))
        send(EVENT_RACE_BLOCK, block.stack, (uint32_t)block.size, packed(at(block.begin), block.size), block.place);
    for (size_t nth = 0; nth < race->lock_count; nth++) {
        const struct held *held = find_held((uintptr_t)race->locks[nth]);
        send(EVENT_RACE_LOCK, held ? held->stack : 0, race->lock_writes[nth], (uintptr_t)race->locks[nth], held ? held->place : 0);
    }
    send(race->writes ? EVENT_RACE_WRITE : EVENT_RACE_READ, stack_look(mine.own->pointer), (uint32_t)race->size, (uintptr_t)race->address, mine.own->site);
}

/* Places in the code whose lines have been reported, so that the writer need not be asked again. */
#define PLACES 1024u
static _Atomic uint64_t places[PLACES];

static _Atomic uint64_t *home_of(uint64_t place, uint64_t nth)
{
    return &places[((place * UINT64_C(0x9e3779b97f4a7c15) >> 54) + nth) % PLACES];
}

static bool is_done(uint64_t place)
{
    uint64_t found = 1;
    for (uint64_t nth = 0; nth < PLACES && found && found != place; nth++)
        found = atomic_load_explicit(home_of(place, nth), memory_order_relaxed);
    return found == place;
}

/* If there is no room, the writer is asked again. */
static void set_done(uint64_t place)
{
    bool is_set = false;
    for (uint64_t nth = 0; nth < PLACES && !is_set; nth++) {
        uint64_t none = 0;
        is_set = atomic_compare_exchange_strong(home_of(place, nth), &none, place) || none == place;
    }
}

/* What the writer has done with the thread's last race. */
static enum race_answer ask_writer(struct ring *ring)
{
    struct timespec pause = {0, 100000};
    while (!atomic_load(&ring->stop) && atomic_load(&ring->head) <= mine.own->ticket && syscall(SYS_kill, ring->writer, 0) == 0)
        syscall(SYS_nanosleep, &pause, NULL);
    return atomic_load(&ring->head) <= mine.own->ticket ? ANSWER_NONE : atomic_load(&ring->lanes[mine.own->lane].answer);
}

/* The report comes before the signal, and a race that isn't reported brings none. A race of a handler would change what is asked for. */
static __attribute__((noinline)) void stop(uint64_t site, bool writes)
{
    struct ring *ring = attached->ring;
    uint64_t place = site << 1 | writes;
    if (!ring || !ring->stops || is_done(place))
        return;
    sigset_t before = block_signals();
    enum race_answer answer = ask_writer(ring);
    if (answer == ANSWER_REPORTED || answer == ANSWER_KNOWN)
        set_done(place);
    if (answer == ANSWER_REPORTED)
        syscall(SYS_tgkill, syscall(SYS_getpid), syscall(SYS_gettid), SIGTRAP);
    set_mask(&before);
}

/* ---- Handlers ----
 *
 * A handler may leave by longjmp what it has interrupted, which would leave a shard of the detector locked. So a signal that comes while the detector is at
 * work on an event is sent again when that is done, and none comes in between. */

/* What the program has asked for. */
static struct { _Atomic uintptr_t handler; _Atomic int flags; sigset_t mask; } actions[NSIG];

/* Calls what the program has asked for. All signals are blocked now, and these were before the handler. */
static void call_handler(int number, siginfo_t *info, void *context, const sigset_t *before)
{
    int flags = atomic_load(&actions[number].flags);
    void (*handler)(int, siginfo_t *, void *) = (void (*)(int, siginfo_t *, void *))atomic_load(&actions[number].handler);
    if (flags & SA_RESETHAND)
        find_sigaction()(number, &(struct sigaction){.sa_handler = SIG_DFL}, NULL);
    sigset_t mask;
    sigorset(&mask, before, &actions[number].mask);
    if (!(flags & SA_NODEFER))
        sigaddset(&mask, number);
    set_mask(&mask);
    bool handled = mine.handles;
    mine.handles = true;
    handler(number, info, context);
    mine.handles = handled;
}

/* If the system takes no more signals, the handler is called from here. */
static __attribute__((noinline)) void deliver(void)
{
    int error = errno;
    ucontext_t here;
    sigset_t mask = mine.own->deferred.mask;
    siginfo_t info = mine.own->deferred.info;
    int number = mine.own->deferred.number;
    mine.own->deferred.number = 0;
    if (syscall(SYS_rt_tgsigqueueinfo, syscall(SYS_getpid), syscall(SYS_gettid), number, &info) != 0 && getcontext(&here) == 0) {
        here.uc_sigmask = mask;
        call_handler(number, &info, &here, &mask);
    }
    set_mask(&mask);
    errno = error;
}

/* A fault can't come later: what it interrupted would fault again. */
static bool is_fault(int number, const siginfo_t *info)
{
    return info->si_code > 0 && (number == SIGSEGV || number == SIGBUS || number == SIGFPE || number == SIGILL || number == SIGTRAP);
}

/* It comes with all signals blocked. */
static void handle(int number, siginfo_t *info, void *context)
{
    ucontext_t *interrupted = context;
    if (mine.is_inside && !is_fault(number, info)) {
        mine.own->deferred.info = *info;
        mine.own->deferred.mask = interrupted->uc_sigmask;
        mine.own->deferred.number = number;
        sigfillset(&interrupted->uc_sigmask);
        return;
    }
    call_handler(number, info, context, &interrupted->uc_sigmask);
}

static bool is_handled(const struct sigaction *action)
{
    return action->sa_handler != SIG_DFL && action->sa_handler != SIG_IGN;
}

static bool is_wrapped(const struct sigaction *action)
{
    return action->sa_flags & SA_SIGINFO && action->sa_sigaction == handle;
}

/* What the system is asked for in place of an action of the program's. */
static struct sigaction wrap(int number, const struct sigaction *action)
{
    struct sigaction ours = *action;
    ours.sa_sigaction = handle;
    ours.sa_flags = (action->sa_flags | SA_SIGINFO) & ~(int)SA_RESETHAND;
    sigfillset(&ours.sa_mask);
    actions[number].mask = action->sa_mask;
    atomic_store(&actions[number].flags, action->sa_flags);
    atomic_store(&actions[number].handler, (uintptr_t)action->sa_sigaction);
    return ours;
}

/* The program sees what it has asked for. */
static int set_action(int number, const struct sigaction *new, struct sigaction *old)
{
    struct sigaction before, ours;
    if (number <= 0 || number >= NSIG)
        return find_sigaction()(number, new, old);
    uintptr_t handler = atomic_load(&actions[number].handler);
    int flags = atomic_load(&actions[number].flags);
    sigset_t mask = actions[number].mask;
    bool wraps = new && is_handled(new) && is_recording();
    if (wraps)
        ours = wrap(number, new);
    int result = find_sigaction()(number, wraps ? &ours : new, &before);
    if (result == 0 && is_wrapped(&before)) {
        before.sa_sigaction = (void (*)(int, siginfo_t *, void *))handler;
        before.sa_flags = flags;
        before.sa_mask = mask;
    }
    if (result == 0 && old)
        *old = before;
    return result;
}

/* Handlers that are there when the program begins to be watched. */
static void wrap_handlers(void)
{
    struct sigaction now;
    for (int number = 1; number < NSIG; number++)
        if (find_sigaction()(number, NULL, &now) == 0 && is_handled(&now) && !is_wrapped(&now)) {
            struct sigaction ours = wrap(number, &now);
            find_sigaction()(number, &ours, NULL);
        }
}

HOOK int sigaction(int number, const struct sigaction *restrict new, struct sigaction *restrict old)
{
    return set_action(number, new, old);
}

/* Other names of the C library's for the same, as the program's headers have them. */
int __sigaction(int number, const struct sigaction *new, struct sigaction *old);
HOOK int __sigaction(int number, const struct sigaction *new, struct sigaction *old)
{
    return set_action(number, new, old);
}

static sighandler_t set_handler(int number, sighandler_t handler, int flags, bool masks)
{
    struct sigaction new = {.sa_handler = handler, .sa_flags = flags}, old;
    sigemptyset(&new.sa_mask);
    if (handler == SIG_ERR || (masks && sigaddset(&new.sa_mask, number) != 0)) {
        errno = EINVAL;
        return SIG_ERR;
    }
    return set_action(number, &new, &old) == 0 ? old.sa_handler : SIG_ERR;
}

/* Signals after whose handlers calls of the system are to fail: `siginterrupt`. */
static _Atomic uint64_t interrupting;

static uint64_t bit_of(int number)
{
    return UINT64_C(1) << (number - 1) % 64;
}

HOOK int siginterrupt(int number, int interrupts)
{
    struct sigaction now;
    if (set_action(number, NULL, &now) != 0)
        return -1;
    if (interrupts)
        atomic_fetch_or(&interrupting, bit_of(number));
    else
        atomic_fetch_and(&interrupting, ~bit_of(number));
    now.sa_flags = interrupts ? now.sa_flags & ~SA_RESTART : now.sa_flags | SA_RESTART;
    return set_action(number, &now, NULL);
}

static sighandler_t set_usual(int number, sighandler_t handler)
{
    return set_handler(number, handler, atomic_load(&interrupting) & bit_of(number) ? 0 : SA_RESTART, true);
}

sighandler_t bsd_signal(int number, sighandler_t handler);
HOOK sighandler_t signal(int number, sighandler_t handler) { return set_usual(number, handler); }
HOOK sighandler_t bsd_signal(int number, sighandler_t handler) { return set_usual(number, handler); }
HOOK sighandler_t ssignal(int number, sighandler_t handler) { return set_usual(number, handler); }

/* That of System V, for one signal alone. With -std=c11 it is what `signal` stands for. */
HOOK sighandler_t sysv_signal(int number, sighandler_t handler) { return set_handler(number, handler, (int)SA_RESETHAND | SA_NODEFER, false); }
HOOK sighandler_t __sysv_signal(int number, sighandler_t handler) { return set_handler(number, handler, (int)SA_RESETHAND | SA_NODEFER, false); }

/* It blocks the signal or unblocks it. */
HOOK sighandler_t sigset(int number, sighandler_t handler)
{
    sigset_t one, before;
    struct sigaction old;
    sigemptyset(&one);
    if (handler == SIG_ERR || sigaddset(&one, number) != 0) {
        errno = EINVAL;
        return SIG_ERR;
    }
    if (handler == SIG_HOLD)
        old.sa_handler = set_action(number, NULL, &old) == 0 ? old.sa_handler : SIG_ERR;
    else
        old.sa_handler = set_handler(number, handler, 0, false);
    if (old.sa_handler == SIG_ERR || pthread_sigmask(handler == SIG_HOLD ? SIG_BLOCK : SIG_UNBLOCK, &one, &before) != 0)
        return SIG_ERR;
    return sigismember(&before, number) ? SIG_HOLD : old.sa_handler;
}

/* ---- Events ---- */

/* Memory of an event, whose size has its upper bits beside the address. */
static uint64_t whole_size(uint32_t size, uint64_t first)
{
    return (first >> REUSE_BITS) << 32 | size;
}

static uint32_t know_block(uint64_t begin, uint64_t size, uint64_t place)
{
    blocks_add((struct block){begin, size, place, place ? stack_look_from(mine.own->pointer, place) : 0});
    return ERASER_QUIET;
}

static uint32_t forget_block(uint64_t begin, uint64_t size)
{
    blocks_forget(begin, size);
    return ERASER_QUIET;
}

static uint32_t take(enum event_kind kind, uint32_t size, uint64_t first, uint64_t second)
{
    switch (kind) {
    case EVENT_READ: return mark_accessed(first, size) ? eraser_read(detector, at(first), size) : ERASER_OUT_OF_MEMORY;
    case EVENT_WRITE: return mark_accessed(first, size) ? eraser_write(detector, at(first), size) : ERASER_OUT_OF_MEMORY;
    case EVENT_LOCK: return size & LOCK_FAILED ? ERASER_QUIET : take_lock(first, second, true);
    case EVENT_READ_LOCK: return size & LOCK_FAILED ? ERASER_QUIET : take_lock(first, second, false);
    case EVENT_UNLOCK: return size & LOCK_FAILED ? ERASER_QUIET : release_lock(first);
    case EVENT_LOCK_BEGIN:
    case EVENT_LOCK_END: return end_lock(first);
    case EVENT_REUSE:
    case EVENT_FREE:
        blocks_forget(first & REUSE_MASK, whole_size(size, first));
        return take_reuse(first & REUSE_MASK, whole_size(size, first));
    case EVENT_TAKEN: return know_block(first & REUSE_MASK, whole_size(size, first), second);
    case EVENT_TAKEN_ANEW: return forget_block(first & REUSE_MASK, whole_size(size, first));
    case EVENT_IGNORE_ON: return change_ignoring(true);
    case EVENT_IGNORE_OFF: return change_ignoring(false);
    default: return ERASER_QUIET; /* a thread that waits for its own lock holds it as before */
    }
}

static void count_lost(struct ring *ring)
{
    atomic_fetch_add_explicit(&ring->lost[self.number % LOST_COUNTERS].count, 1, memory_order_relaxed);
}

/* Only this thread counts in its lane, so it takes no atomic operation. A block that it gets is no event. */
static inline void count(struct ring *ring, enum event_kind kind)
{
    const struct course *course = &self.courses[0];
    if (LIKELY(course->slots != NULL && kind <= EVENT_IGNORE_OFF))
        ring->lanes[course->lane].watched[kind > EVENT_WRITE]++;
}

/* At a thread's first event. */
static __attribute__((noinline)) bool has_own(void)
{
    sigset_t before = block_signals();
    mine.own = eraser_take(sizeof *mine.own);
    if (mine.own) {
        memset(mine.own, 0, sizeof *mine.own);
        mine.own->released = atomic_load(&release_count);
    }
    set_mask(&before);
    return mine.own != NULL;
}

static uint32_t call(struct ring *ring, enum event_kind kind, uint32_t size, uint64_t first, uint64_t second)
{
    int error = errno;
    uint64_t released = atomic_load_explicit(&release_count, memory_order_acquire);
    if (UNLIKELY(released != mine.own->released))
        look_at_releases(released);
    count(ring, kind);
    mine.own->site = second;
    uint32_t status = take(kind, size, first, second);
    errno = error;
    return status;
}

/* An access of a thread that counts as ended is lost. What else it does, its allocator does as well. */
static __attribute__((noinline)) void leave_out(struct ring *ring, enum event_kind kind, uint32_t size, uint64_t first)
{
    if (kind <= EVENT_WRITE || (!mine.has_ended && kind <= EVENT_IGNORE_OFF))
        count_lost(ring);
    if (mine.has_ended && (kind == EVENT_FREE || kind == EVENT_REUSE || kind == EVENT_TAKEN_ANEW)) {
        sigset_t before = block_signals();
        blocks_forget(first & REUSE_MASK, whole_size(size, first));
        set_mask(&before);
    }
}

/* A handler may leave what it interrupts by longjmp, so what comes last is its signal. */
void online_take(enum event_kind kind, uint32_t size, uint64_t first, uint64_t second, uintptr_t pointer)
{
    struct ring *ring = attached->ring;
    int type;
    if (kind == EVENT_VOID || !ring)
        return;
    if (UNLIKELY(mine.has_ended || mine.is_inside || (!mine.own && !has_own()))) {
        leave_out(ring, kind, size, first);
        return;
    }
    bool is_cancelled_anywhere = mine.may_be_cancelled || mine.handles;
    if (UNLIKELY(is_cancelled_anywhere))
        find_pthread_setcanceltype()(PTHREAD_CANCEL_DEFERRED, &type);
    set_inside(true);
    mine.own->pointer = pointer;
    uint32_t status = call(ring, kind, size, first, second);
    set_inside(false);
    if (UNLIKELY(status > ERASER_IGNORED))
        count_lost(ring);
    if (UNLIKELY(status == ERASER_RACE))
        stop(second, kind == EVENT_WRITE);
    if (UNLIKELY(is_cancelled_anywhere))
        find_pthread_setcanceltype()(type, &type);
    if (UNLIKELY(mine.own->deferred.number))
        deliver();
}

/* A thread that is cancelled while the detector is at work would leave it locked. So it is at none of these instructions. (That its state says that
 * it is not to be cancelled is not enough: the C library looks at that before it sends the signal, and not when it comes.) */
HOOK int pthread_setcanceltype(int type, int *before)
{
    int result = find_pthread_setcanceltype()(type, before);
    if (result == 0)
        mine.may_be_cancelled = type == PTHREAD_CANCEL_ASYNCHRONOUS;
    return result;
}

void online_end_of_thread(void)
{
    sigset_t before = block_signals();
    mine.has_ended = true;
    eraser_give(mine.own);
    mine.own = NULL;
    set_mask(&before);
}

uint32_t online_number(void)
{
    sigset_t before = block_signals();
    uint32_t number = eraser_self(detector);
    set_mask(&before);
    return number;
}

/* In a forked child, whose other threads are gone: what they were at work on is used no more. */
static void forget_parent(void)
{
    if (!detector || owner == syscall(SYS_getpid))
        return;
    detector = NULL;
    mine.own = NULL;
    mine.is_inside = false;
    eraser_forget();
    releases_begin();
}

bool online_begin(struct ring *ring)
{
    static bool watches_forks;
    /* It may have been forked without the handlers of forks. */
    forget_parent();
    marks_forget();
    blocks_begin();
    memset(places, 0, sizeof places);
    if (!watches_forks)
        pthread_atfork(NULL, NULL, forget_parent);
    watches_forks = true;
    owner = syscall(SYS_getpid);
    detector = eraser_start(&(struct eraser_options){.on_race = on_race});
    if (!detector)
        return false;
    eraser_count_pages(&ring->detector_bytes);
    wrap_handlers();
    return true;
}

#endif
