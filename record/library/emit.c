/* Finds the ring, and does what an event needs besides its slot: room to wait for, numbers of threads, repairs. */
#include "memory.h"

#include <dlfcn.h>
#include <errno.h>
#include <fcntl.h>
#include <linux/futex.h>
#include <pthread.h>
#include <signal.h>
#include <string.h>
#include <sys/mman.h>
#include <sys/syscall.h>
#include <time.h>
#include <unistd.h>

static struct attachment no_attachment;
struct attachment *attached = &no_attachment;
__thread struct self self __attribute__((tls_model("initial-exec")));

/* ---- Events that need more than a slot ---- */

static void count_lost(struct ring *ring, const struct self *me)
{
    atomic_fetch_add_explicit(&ring->lost[me->number % LOST_COUNTERS].count, 1, memory_order_relaxed);
}

/* True if this thread is in a signal handler that runs on a stack of its own. */
static bool is_on_other_stack(void)
{
    stack_t now;
    return syscall(SYS_sigaltstack, NULL, &now) == 0 && (now.ss_flags & SS_ONSTACK);
}

/* No signal handler comes from here on, nor is the thread cancelled. Gives the signals that were blocked before. */
static uint64_t hold_signals(void)
{
    uint64_t all = UINT64_MAX, before = 0;
    syscall(SYS_rt_sigprocmask, SIG_SETMASK, &all, &before, sizeof before);
    return before;
}

static void let_signals(uint64_t before)
{
    syscall(SYS_rt_sigprocmask, SIG_SETMASK, &before, NULL, sizeof before);
}

/* Some ticket that was drawn by now may have no event. */
static void warn_writer(struct ring *ring)
{
    uint64_t tail = atomic_load(&ring->tail), before = atomic_load(&ring->abandoned);
    while (before < tail && !atomic_compare_exchange_weak(&ring->abandoned, &before, tail))
        ;
}

/* Whether the event that was begun in this course stands in its lane at this position. */
static bool is_at(const struct course *course, uint32_t position)
{
    const struct slot *slot = &course->slots[position & course->mask];
    return atomic_load_explicit(&slot->published, memory_order_relaxed) == lane_mark(position) && slot->ticket == (uint32_t)course->ticket;
}

/* The event that was begun last gets no other end: an empty one has its ticket. It may have been left right after it was published, and its position may
 * have been counted then or not. No signal handler may come in between, since it might give up the same one. */
static void give_up(struct ring *ring, struct self *me)
{
    struct course *course = &me->courses[me->depth - 1];
    bool has_ticket = course->ticket != TICKET_NONE && course->ticket != TICKET_DRAWING, is_published = false;
    if (course->ticket == TICKET_DRAWING)
        warn_writer(ring);
    if (has_ticket) {
        bool is_counted = is_at(course, course->next - 1);
        is_published = is_counted || is_at(course, course->next);
        if (!is_published) {
            struct slot *slot = &course->slots[course->next & course->mask];
            slot->ticket = (uint32_t)course->ticket;
            slot->kind_and_stack = EVENT_VOID;
            atomic_store_explicit(&slot->published, lane_mark(course->next), memory_order_release);
        }
        course->next += !is_counted;
    }
    /* It may be in the trace, and nobody has noted it. */
    if (has_ticket && attached->notes)
        notes_forget_all(attached->notes, ring);
    course->ticket = TICKET_NONE;
    set_depth(me, me->depth - 1);
    if (!is_published)
        count_lost(ring, me);
}

/* Takes the first lane from here on that is free. LANES if there is none. */
static uint32_t take_from(struct ring *ring, uint32_t at)
{
    for (uint32_t state = LANE_FREE; at < LANES; at++, state = LANE_FREE)
        if (atomic_load_explicit(&ring->lanes[at].state, memory_order_relaxed) == LANE_FREE
            && atomic_compare_exchange_strong(&ring->lanes[at].state, &state, LANE_TAKEN))
            break;
    return at;
}

/* No signal handler may come in between, since it would find a course that is half changed, or leave it so. */
static bool take_lane_held(struct ring *ring, const struct self *me, struct course *course)
{
    uint32_t first = atomic_load(&ring->first_free), at = take_from(ring, first);
    if (at == LANES)
        at = take_from(ring, 0);
    if (at == LANES)
        return false;
    /* The writer moves it back. */
    atomic_compare_exchange_strong(&ring->first_free, &first, at + 1);
    for (uint32_t used = atomic_load(&ring->lanes_used); used <= at && !atomic_compare_exchange_weak(&ring->lanes_used, &used, at + 1);)
        ;
    ring->lanes[at].thread = me->number;
    atomic_store(&ring->lanes[at].task, (uint32_t)syscall(SYS_gettid));
    course->lane = at;
    course->mask = lane_slots(at) - 1;
    course->next = atomic_load(&ring->lanes[at].head);
    course->full = course->next + course->mask + 1;
    course->slots = &ring->slots[lane_begin(at)];
    return true;
}

static bool take_lane(struct ring *ring, const struct self *me, struct course *course)
{
    uint64_t before = hold_signals();
    bool is_taken = take_lane_held(ring, me, course);
    /* If there was none, the writer has a reason to look whose threads are gone. */
    atomic_fetch_add(&ring->takes, 1);
    let_signals(before);
    return is_taken;
}

/* The lane has no more events. */
static void leave_lane(struct ring *ring, struct course *course)
{
    uint64_t before = hold_signals();
    struct lane *lane = &ring->lanes[course->lane];
    course->slots = NULL;
    course->full = course->next;
    lane->end = course->next;
    atomic_store_explicit(&lane->state, LANE_LEFT, memory_order_release);
    let_signals(before);
}

/* Whether the writer waits for an event that the signal handler has interrupted which is to record one in this course. */
static bool is_awaited(const struct ring *ring, const struct self *me, const struct course *course)
{
    for (const struct course *outer = me->courses; outer < course; outer++)
        if (outer->ticket != TICKET_NONE)
            return outer->ticket == TICKET_DRAWING || atomic_load_explicit(&ring->head, memory_order_acquire) >= outer->ticket;
    return false;
}

/* Waits until the lane has room, or takes another one if the writer waits for this thread. False if there will be none. */
static bool wait_for_room(struct ring *ring, const struct self *me, struct course *course)
{
    for (unsigned turn = 0;; turn++) {
        course->full = atomic_load_explicit(&ring->lanes[course->lane].head, memory_order_acquire) + course->mask + 1;
        if (course->next != course->full)
            return true;
        if (atomic_load_explicit(&ring->stop, memory_order_relaxed))
            return false;
        if (is_awaited(ring, me, course)) {
            leave_lane(ring, course);
            return take_lane(ring, me, course);
        }
        struct timespec pause = {0, 50000};
        syscall(SYS_nanosleep, &pause, NULL);
        if (turn % 1024 == 1023 && syscall(SYS_kill, ring->writer, 0) != 0 && errno == ESRCH)
            atomic_store(&ring->stop, 1);
    }
}

bool emit_wait(struct ring *ring, struct self *me, struct course *course, void *outer_frame)
{
    int error = errno;
    if (me->number == 0)
        begin_self(ring, IS_ONLINE ? online_number() : atomic_fetch_add_explicit(&ring->threads, 1, memory_order_relaxed) + 1);
    bool has_room = me->number && (course->slots ? wait_for_room(ring, me, course) : take_lane(ring, me, course));
    if (!has_room) {
        set_depth(me, me->depth - 1);
        course->frame = outer_frame;
        count_lost(ring, me);
    }
    errno = error;
    return has_room;
}

/* Whether a handler left the event for good that was begun last, by longjmp. */
static bool was_left(const struct self *me, const void *frame)
{
    uint32_t depth = __atomic_load_n(&me->depth, __ATOMIC_RELAXED);
    return depth && (const char *)frame >= (const char *)me->courses[depth - 1].frame && !is_on_other_stack();
}

/* An event that was begun has been interrupted by a signal handler, whose frame is lower; or a handler left it for good. */
struct course *emit_prepare(struct ring *ring, struct self *me, void *frame)
{
    int error = errno;
    if (was_left(me, frame)) {
        uint64_t before = hold_signals();
        while (was_left(me, frame))
            give_up(ring, me);
        let_signals(before);
    }
    bool has_course = me->depth < DEPTHS && !atomic_load_explicit(&ring->stop, memory_order_relaxed);
    if (!has_course)
        count_lost(ring, me);
    errno = error;
    return has_course ? &me->courses[me->depth] : NULL;
}

void emit_end_of_thread(void)
{
    if (!attached->ring || !self.depth)
        return;
    uint64_t before = hold_signals();
    while (self.depth)
        give_up(attached->ring, &self);
    let_signals(before);
}

void emit_leave_lanes(void)
{
    for (struct course *course = self.courses; attached->ring && course < self.courses + DEPTHS; course++)
        if (course->slots)
            leave_lane(attached->ring, course);
}

/* A handler may come in between, with later events. */
static void end_repeats(struct self *me, uint64_t ticket)
{
    uint64_t since = __atomic_load_n(&me->since, __ATOMIC_RELAXED);
    while (since < ticket && !__atomic_compare_exchange_n(&me->since, &since, ticket, false, __ATOMIC_RELAXED, __ATOMIC_RELAXED))
        ;
}

void emit_note(struct self *me, uint64_t ticket, const struct slot *slot)
{
    struct ring *ring = attached->ring;
    struct notes *notes = attached->notes;
    /* What a handler interrupts may be an event that ends what is known. */
    struct doer doer = {me->number, me->depth > 1 ? UINT64_MAX : me->since};
    enum event_kind kind = slot_kind(slot);
    if (kind == EVENT_READ || kind == EVENT_WRITE)
        notes_add(notes, ring, doer, ticket, kind == EVENT_WRITE, slot->first, slot->size);
    if (kind <= EVENT_WRITE)
        return;
    if (kind == EVENT_REUSE || kind == EVENT_FREE)
        notes_forget(notes, ring, doer, ticket, slot->first & REUSE_MASK, reuse_size(slot));
    else if ((kind == EVENT_LOCK || kind == EVENT_READ_LOCK || kind == EVENT_UNLOCK) && !(slot->size & LOCK_FAILED))
        notes_lock(notes, ring, doer, kind != EVENT_UNLOCK, slot->first);
    end_repeats(me, ticket);
}

void emit_forget(const struct draft *draft, const volatile void *address, uint64_t size)
{
    struct notes *notes = IS_ONLINE ? NULL : attached->notes;
    if (notes && is_memory(address, size))
        notes_forget(notes, attached->ring, (struct doer){draft->me->number, 0}, draft->ticket, (uintptr_t)address, size);
}

void emit_range(enum event_kind kind, const volatile void *address, uint64_t size, uint64_t site)
{
    const uint64_t most = UINT64_C(1) << 31;
    uint64_t at = (uintptr_t)address;
    if ((kind == EVENT_READ ? self.reads_ignored : self.writes_ignored) || is_repeat(kind == EVENT_WRITE, address, size))
        return;
    for (; size > most; at += most, size -= most)
        emit(kind, (uint32_t)most, at, site);
    if (size)
        emit(kind, (uint32_t)size, at, site);
}

/* In a bracket, because happens-before would ask for an order that no event shows. */
void emit_hand_over(const volatile void *address, uint64_t size)
{
    bool is_in_bracket = size && is_ordering();
    if (is_in_bracket)
        emit(EVENT_IGNORE_ON, 0, 0, 0);
    emit_reuse(address, size);
    if (is_in_bracket)
        emit(EVENT_IGNORE_OFF, 0, 0, 0);
}

/* ---- Start ---- */

/* Where the program's files are mapped, for the source lines. Read from the kernel, since this takes no lock and no memory. */
void emit_maps(void)
{
    if (!is_recording())
        return;
    int error = errno;
    int file = (int)syscall(SYS_openat, AT_FDCWD, "/proc/self/maps", O_RDONLY | O_CLOEXEC);
    emit(EVENT_MAPS_BEGIN, 0, 0, 0);
    char text[4096];
    long got;
    while (file >= 0 && (got = syscall(SYS_read, file, text, sizeof text)) > 0)
        for (long at = 0; at < got; at += 16) {
            uint64_t part[2] = {0, 0};
            uint32_t size = got - at < 16 ? (uint32_t)(got - at) : 16;
            __builtin_memcpy(part, text + at, size);
            emit(EVENT_MAPS_TEXT, size, part[0], part[1]);
        }
    if (file >= 0)
        syscall(SYS_close, file);
    emit(EVENT_MAPS_END, 0, 0, 0);
    errno = error;
}

/* Finds the value of RING_VARIABLE. The C library's environment is not there yet when the first hook is called. */
static bool read_setting(char *value, size_t room)
{
    static const char name[] = RING_VARIABLE "=";
    int file = (int)syscall(SYS_openat, AT_FDCWD, "/proc/self/environ", O_RDONLY | O_CLOEXEC);
    char text[4096];
    size_t matched = 0, used = 0; /* matched: bytes of the name; SIZE_MAX: this variable is another one */
    long got;
    while (file >= 0 && used < room && (got = syscall(SYS_read, file, text, sizeof text)) > 0)
        for (long i = 0; i < got && used < room; i++) {
            if (matched == sizeof name - 1)
                value[used++] = text[i];
            else if (matched != SIZE_MAX && text[i] == name[matched])
                matched++;
            else
                matched = SIZE_MAX;
            if (text[i] == 0) {
                if (used)
                    break;
                matched = 0;
            }
        }
    if (file >= 0)
        syscall(SYS_close, file);
    return used && used < room && value[used - 1] == 0;
}

static struct ring *map_ring(const char *path)
{
    int file = (int)syscall(SYS_openat, AT_FDCWD, path, O_RDWR | O_CLOEXEC);
    if (file < 0)
        return NULL;
    void *ring = mmap(NULL, sizeof(struct ring), PROT_READ | PROT_WRITE, MAP_SHARED, file, 0);
    syscall(SYS_close, file);
    if (ring == MAP_FAILED || ((struct ring *)ring)->magic != RING_MAGIC)
        return NULL;
    /* A core file would have all of its addresses. */
    madvise(ring, sizeof(struct ring), MADV_DONTDUMP);
    return ring;
}

/* A page that a forked child finds cleared. */
static struct attachment *map_attachment(void)
{
    void *page = mmap(NULL, 4096, PROT_READ | PROT_WRITE, MAP_PRIVATE | MAP_ANONYMOUS, -1, 0);
    return page == MAP_FAILED || madvise(page, 4096, MADV_WIPEONFORK) != 0 ? NULL : page;
}

/* ---- A ring for a further program ---- */

static char *put_digits(char *at, uint32_t number)
{
    if (number > 9)
        at = put_digits(at, number / 10);
    *at = (char)('0' + number % 10);
    return at + 1;
}

/* Without the C library's functions, which may not be ready yet. */
static void put_path(char *at, uint32_t process, uint32_t file)
{
    __builtin_memcpy(at, "/proc/", 6);
    at = put_digits(at + 6, process);
    __builtin_memcpy(at, "/fd/", 4);
    at = put_digits(at + 4, file);
    *at = 0;
}

static bool is_there(uint32_t process)
{
    return process && (syscall(SYS_kill, process, 0) == 0 || errno != ESRCH);
}

static struct asker *find_seat(struct ring *first)
{
    for (;;) {
        for (unsigned i = 0; i < RING_ASKERS; i++) {
            uint32_t none = ASKER_NONE;
            if (atomic_compare_exchange_strong(&first->askers[i].state, &none, ASKER_COMES))
                return &first->askers[i];
        }
        struct timespec pause = {0, 1000000};
        syscall(SYS_nanosleep, &pause, NULL);
        if (!is_there(atomic_load(&first->server)))
            return NULL;
    }
}

/* The ring that the server gives to this program, or NULL. */
static struct ring *ask_for_ring(struct ring *first)
{
    struct asker *asker = is_there(atomic_load(&first->server)) ? find_seat(first) : NULL;
    struct timespec pause = {0, 100000000};
    char path[64];
    uint32_t state;
    if (!asker)
        return NULL;
    asker->process = (uint32_t)syscall(SYS_getpid);
    atomic_store(&asker->state, ASKER_WAITS);
    atomic_fetch_add(&first->bell, 1);
    syscall(SYS_futex, &first->bell, FUTEX_WAKE, 1, NULL, NULL, 0);
    while ((state = atomic_load(&asker->state)) == ASKER_WAITS || state == ASKER_TAKEN) {
        syscall(SYS_futex, &asker->state, FUTEX_WAIT, state, &pause, NULL, 0);
        if (!is_there(atomic_load(&first->server)))
            return NULL;
    }
    if (state == ASKER_HAS) {
        put_path(path, asker->writer, asker->file);
        return map_ring(path);
    }
    atomic_store(&asker->state, ASKER_NONE);
    return NULL;
}

static bool is_own(const struct ring *ring)
{
    return atomic_load(&ring->owner) == (uint32_t)syscall(SYS_getpid);
}

/* Takes a ring, if no other program has it. */
static bool own(struct ring *ring, struct attachment *page)
{
    uint32_t nobody = 0;
    char path[4096];
    long length = syscall(SYS_readlinkat, AT_FDCWD, "/proc/self/exe", path, sizeof path);
    if (!atomic_compare_exchange_strong(&ring->owner, &nobody, (uint32_t)syscall(SYS_getpid)))
        return false;
    if (IS_ONLINE && !online_begin(ring)) {
        atomic_store(&ring->lacks_memory, 1);
        return false;
    }
    long begin = length;
    while (begin > 0 && path[begin - 1] != '/')
        begin--;
    for (long i = begin; i < length && i - begin < RING_NAME_BYTES - 1; i++)
        ring->program[i - begin] = path[i];
    page->ring = ring;
    page->orders = ring->orders;
    page->loads = ring->flows ? LOADS_FOR_FLOW : 0;
    page->shakes = ring->shakes;
    page->notes_atomics = page->orders || page->shakes;
    page->seed = ring->seed;
    page->notes = ring->thins ? notes_make() : NULL;
    return true;
}

/* Whether the program ran before it had instrumented code. It may hold locks then that were not recorded. */
static bool has_begun;

/* What is known not to be recorded of this program: where another definition of a function comes before this library's. */
static uint32_t unseen(void)
{
    bool sees_locks = find_first("pthread_mutex_lock") != find_behind("pthread_mutex_lock");
    return (sees_locks ? 0 : UNSEEN_LOCKS) | (is_free_seen() ? 0 : UNSEEN_FREES);
}

/* Records this process in the first ring, or in one of its own if another program has that. */
static void attach_to(struct ring *first, struct attachment *page)
{
    struct ring *ring = own(first, page) ? first : is_own(first) ? NULL : ask_for_ring(first);
    if (ring && ring != first && !own(ring, page))
        ring = NULL;
    if (!ring && !is_own(first))
        atomic_fetch_add(&first->others, 1);
    page->was_refused = !ring;
    if (ring != first)
        syscall(SYS_munmap, first, sizeof *first);
    if (!ring)
        return;
    ring->unseen = unseen();
    ring->is_late = has_begun;
    attached = page;
    emit(EVENT_THREAD, 0, (uint64_t)pthread_self(), 0);
}

/* Where the first ring is. A program may write over its environment. */
static char place_of_first[64];

/* As long as this process or a forked child has it mapped, the recorder waits. */
static void be_present(const struct ring *first)
{
    char path[64];
    put_path(path, first->writer, first->presence);
    int file = (int)syscall(SYS_openat, AT_FDCWD, path, O_RDWR | O_CLOEXEC);
    if (file < 0)
        return;
    mmap(NULL, PRESENCE_BYTES, PROT_READ, MAP_SHARED, file, 0);
    syscall(SYS_close, file);
}

/* Begins to record if `record/run` started this program. */
void attach(void)
{
    static atomic_int was_called;
    if (atomic_exchange(&was_called, 1))
        return;
    int error = errno;
    struct ring *first = read_setting(place_of_first, sizeof place_of_first) ? map_ring(place_of_first) : NULL;
    struct attachment *page = first ? map_attachment() : NULL;
    if (first)
        be_present(first);
    if (page)
        attach_to(first, page);
    else if (first)
        atomic_fetch_add(&first->others, 1);
    errno = error;
}

/* What a forked child does is recorded from its first thread on, as that of a further program. Most children start another program instead. */
bool attach_child(void)
{
    if (attached == &no_attachment || attached->was_refused)
        return false;
    int error = errno;
    struct ring *first = map_ring(place_of_first);
    attached->was_refused = !first;
    has_begun = true;
    self = (struct self){.reads_ignored = self.reads_ignored, .writes_ignored = self.writes_ignored};
    if (KEEPS_STACKS)
        stack_forget_nodes();
    if (first)
        attach_to(first, attached);
    if (is_recording())
        note_files(true);
    errno = error;
    return is_recording();
}

/* A child finds no ring, so its parent counts it. */
static void count_fork(void)
{
    if (attached->ring)
        atomic_fetch_add_explicit(&attached->ring->forks, 1, memory_order_relaxed);
}

/* This library is in front of all others of each program that `record/run` starts. A program that isn't instrumented may load what is. */
static __attribute__((constructor)) void begin(void)
{
    pthread_atfork(NULL, count_fork, NULL);
    if (has_instrumented_file())
        attach();
    else
        has_begun = true;
}

/* ---- Functions behind this library ---- */

static int is_missing(void)
{
    return ENOSYS;
}

bool is_found(const void *function)
{
    return function != (const void *)(uintptr_t)is_missing;
}

/* Where a file is in memory that has this place. */
static const void *file_of(const void *place)
{
    Dl_info found;
    return dladdr(place, &found) ? found.dli_fbase : NULL;
}

const void *find_first(const char *name)
{
    return dlsym(RTLD_DEFAULT, name);
}

const void *find_behind(const char *name)
{
    return dlsym(RTLD_NEXT, name);
}

bool is_in_one_file(const void *one, const void *other)
{
    return file_of(one) == file_of(other);
}

bool is_here(const void *function)
{
    return is_in_one_file(function, &no_attachment);
}

/* `dlsym` finds the newest version of a name. A program that was linked with ThreadSanitizer's library asks for no version, and would
 * get the oldest from the C library itself. */
void *find_real(void **place, const char *name)
{
    int error = errno;
    void *found = dlsym(RTLD_NEXT, name);
    if (!found)
        found = (void *)(uintptr_t)is_missing;
    __atomic_store_n(place, found, __ATOMIC_RELEASE);
    errno = error;
    return found;
}
