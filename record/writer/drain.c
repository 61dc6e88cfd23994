#define _GNU_SOURCE
#include "drain.h"

#include <stdlib.h>
#include <string.h>

#include "barriers.h"
#include "fences.h"
#include "flow.h"
#include "lanes.h"
#include "locks.h"
#include "nodes.h"
#include "objects.h"
#include "online.h"
#include "options.h"
#include "pages.h"
#include "sites.h"
#include "stacks.h"
#include "thin.h"
#include "trace.h"

/* Threads see the head once in this number of events. */
#define HEAD_STEP 512
/* The most events that are kept back from a reader that waits for them. */
#define FLUSH_STEP 65536

bool drain_has_frees;

/* A text that comes in parts of 16 bytes from one thread, with other threads' events in between. */
struct text {
    struct text *next;
    uint32_t thread;
    size_t bytes, room;
    char *content;
};
static struct text *texts;

/* What is known of a thread beside its events: its pthread_t (0: none), whom it is about to name, and whom it is about to join. */
struct identity {
    uint64_t self, named, joining;
    uint32_t joined; /* the number of `joining`, 0 if it has none */
    bool has_ended;
    uint32_t next;   /* in its bucket */
};
static struct identity *identities;
static uint32_t identity_room;

/* The numbers of the threads that have a pthread_t, by it. */
#define IDENTITY_BITS 16
static uint32_t identity_buckets[1u << IDENTITY_BITS];

static struct identity *get_identity(uint32_t number)
{
    if (number >= identity_room) {
        uint32_t room = number < 1024 ? 2048 : 2 * number;
        identities = get_zeroed(identities, identity_room * sizeof *identities, room * sizeof *identities);
        identity_room = room;
    }
    return &identities[number];
}

static uint32_t *identity_bucket(uint64_t self)
{
    return &identity_buckets[self * UINT64_C(0x9e3779b97f4a7c15) >> (64 - IDENTITY_BITS)];
}

/* The number of the thread that has this pthread_t, or 0. */
static uint32_t number_of(uint64_t self)
{
    uint32_t number = self ? *identity_bucket(self) : 0;
    while (number && identities[number].self != self)
        number = identities[number].next;
    return number;
}

static void drop_self(uint32_t number)
{
    struct identity *identity = get_identity(number);
    if (!identity->self)
        return;
    uint32_t *place = identity_bucket(identity->self);
    while (*place != number)
        place = &identities[*place].next;
    *place = identity->next;
    identity->self = 0;
}

/* A pthread_t is used again when its thread has ended, so whoever had it before has it no more. */
static void set_self(uint32_t number, uint64_t self)
{
    uint32_t before = number_of(self);
    if (before)
        drop_self(before);
    drop_self(number);
    if (!self)
        return;
    uint32_t *bucket = identity_bucket(self);
    get_identity(number)->self = self;
    get_identity(number)->has_ended = false;
    get_identity(number)->next = *bucket;
    *bucket = number;
}

/* ---- Names of threads ---- */

/* The last ones of threads that have not begun, or that are not recorded. */
#define MOST_EARLY 64
static struct { uint64_t self; char name[17]; } early_names[MOST_EARLY];
static unsigned early_count;

static void keep_early_name(uint64_t self, const char *name)
{
    unsigned at = early_count++ % MOST_EARLY;
    early_names[at].self = self;
    strcpy(early_names[at].name, name);
}

static void use_early_name(uint32_t number, uint64_t self)
{
    for (unsigned i = 0; i < MOST_EARLY; i++)
        if (self && early_names[i].self == self) {
            trace_thread_name(trace_thread(number), early_names[i].name);
            early_names[i].self = 0;
        }
}

static void name_thread(const struct slot *slot)
{
    char name[17];
    memcpy(name, &slot->first, 8);
    memcpy(name + 8, &slot->second, 8);
    name[16] = 0;
    uint64_t whom = get_identity(slot->thread)->named;
    /* Nearly every thread names itself. */
    if (get_identity(slot->thread)->self == whom) {
        trace_thread_name(trace_thread(slot->thread), name);
        return;
    }
    uint32_t number = number_of(whom);
    if (number && !get_identity(number)->has_ended)
        trace_thread_name(trace_thread(number), name);
    else
        keep_early_name(whom, name);
}

/* ---- Begins, starts and joins of threads ---- */

/* Who begins is in no calls yet: those of the event are its creator's. */
static void begin_thread(const struct slot *slot)
{
    set_self(slot->thread, slot->first);
    stacks_set(slot->size);
    trace_thread(slot->thread)->created_at = trace_creator(slot->second);
    use_early_name(slot->thread, slot->first);
}

static void start_thread(const struct slot *slot)
{
    uint32_t number = slot->size;
    set_self(number, slot->first);
    trace_other_thread(slot->thread, VERB_START, number, slot->second);
}

/* The number is found before the join, since another thread may have the pthread_t right after. */
static void begin_join(const struct slot *slot)
{
    uint32_t joined = number_of(slot->first);
    struct identity *identity = get_identity(slot->thread);
    identity->joining = slot->first;
    identity->joined = joined;
}

/* A thread that was not started by code that is recorded has no number. If the event of whom is lost, what an earlier join left says
 * nothing of this one. */
static void end_join(const struct slot *slot)
{
    struct identity *identity = get_identity(slot->thread);
    uint32_t joined = identity->joining == slot->first ? identity->joined : 0;
    identity->joining = identity->joined = 0;
    if (!joined)
        return;
    if (number_of(slot->first) == joined)
        drop_self(joined);
    trace_other_thread(slot->thread, VERB_JOIN, joined, slot->second);
    fences_end(slot->thread, joined);
}

/* ---- Signals and awaits ---- */

static void signal_object(const struct slot *slot, enum object_kind kind)
{
    if (kind == OBJECT_BARRIER) {
        barriers_arrive(slot->thread, slot->first, slot->second);
        return;
    }
    bool is_written = objects_signal(slot->thread, slot->first, kind, slot->second);
    if (kind == OBJECT_ATOMIC)
        flow_store(slot->thread, slot->first, slot->second, is_written);
}

static void await_object(const struct slot *slot, enum object_kind kind)
{
    if (kind == OBJECT_BARRIER) {
        barriers_leave(slot->thread, slot->first, slot->second);
        return;
    }
    bool is_written = objects_await(slot->thread, slot->first, slot->second);
    if (kind == OBJECT_ATOMIC && !is_written)
        flow_load(slot->thread, slot->first, slot->second);
}

/* Atomic operations that release nothing, or acquire nothing, but for what fences make of them. */
static void store_atomic(const struct slot *slot)
{
    fences_store(slot->thread, slot->first);
    flow_store(slot->thread, slot->first, slot->second, false);
}

static void load_atomic(const struct slot *slot)
{
    if (slot->size & LOADS_FOR_FENCES)
        fences_load(slot->thread, slot->first);
    flow_load(slot->thread, slot->first, slot->second);
}

/* ---- Acquires ---- */

static void acquire(const struct slot *slot)
{
    struct acquire acquire = {(enum lock_kind)(slot->size % LOCK_KINDS), slot_kind(slot) == EVENT_READ_LOCK, slot->size & LOCK_TRIED, slot->second};
    if (slot->size & LOCK_FAILED)
        locks_fail(slot->thread, slot->first, acquire);
    else
        locks_acquire(slot->thread, slot->first, acquire);
}

static void end_object(uint64_t address)
{
    barriers_end(address);
    objects_end(address);
}

/* ---- Maps ---- */

static struct text *find_text(uint32_t thread)
{
    struct text *text = texts;
    while (text && text->thread != thread)
        text = text->next;
    return text;
}

static void begin_text(uint32_t thread)
{
    struct text *text = find_text(thread);
    if (!text) {
        text = get_memory(NULL, sizeof *text);
        *text = (struct text){texts, thread, 0, 0, NULL};
        texts = text;
    }
    text->bytes = 0;
}

static void add_text(const struct slot *slot)
{
    struct text *text = find_text(slot->thread);
    if (!text)
        return;
    if (text->bytes + 16 > text->room) {
        text->room = text->room ? 2 * text->room : 16384;
        text->content = get_memory(text->content, text->room);
    }
    memcpy(text->content + text->bytes, &slot->first, 8);
    memcpy(text->content + text->bytes + 8, &slot->second, 8);
    text->bytes += slot->size <= 16 ? slot->size : 16;
}

static void end_text(uint32_t thread)
{
    struct text **place = &texts;
    while (*place && (*place)->thread != thread)
        place = &(*place)->next;
    struct text *text = *place;
    if (!text)
        return;
    if (sites_set_maps(text->content, text->bytes)) {
        nodes_forget_places();
        stacks_forget_places();
    }
    *place = text->next;
    free(text->content);
    free(text);
}

/* ---- Events ---- */

static void change_ignoring(uint32_t number, bool begins)
{
    struct thread *thread = trace_thread(number);
    if (begins ? thread->ignoring++ == 0 : thread->ignoring == 1)
        trace_ignore(thread, begins ? VERB_IGNORE_ON : VERB_IGNORE_OFF);
    if (!begins && thread->ignoring)
        thread->ignoring--;
}

static void take_rare(const struct slot *slot)
{
    switch (slot_kind(slot)) {
    case EVENT_LOCK_TWICE: locks_wait_for_own(slot->thread, slot->first, slot->second); break;
    case EVENT_LOCK_BEGIN: locks_begin(slot->first, slot->second); break;
    case EVENT_LOCK_END: locks_end(slot->thread, slot->first, slot->second); break;
    case EVENT_IGNORE_ON: change_ignoring(slot->thread, true); break;
    case EVENT_IGNORE_OFF: change_ignoring(slot->thread, false); break;
    case EVENT_THREAD: begin_thread(slot); break;
    case EVENT_THREAD_END: get_identity(slot->thread)->has_ended = true; break;
    case EVENT_NAME_WHOM: get_identity(slot->thread)->named = slot->first; break;
    case EVENT_NAME: name_thread(slot); break;
    case EVENT_MAPS_BEGIN: begin_text(slot->thread); break;
    case EVENT_MAPS_TEXT: add_text(slot); break;
    case EVENT_MAPS_END: end_text(slot->thread); break;
    case EVENT_START: start_thread(slot); break;
    case EVENT_JOIN_WHOM: begin_join(slot); break;
    case EVENT_JOIN: end_join(slot); break;
    case EVENT_OBJECT_BEGIN: objects_forget(slot->first, 1); break;
    case EVENT_OBJECT_END: end_object(slot->first); break;
    case EVENT_BARRIER: barriers_begin(slot->first, slot->second); break;
    case EVENT_LET_GO: objects_let_go(slot->thread, slot->first, (enum object_kind)(slot->size % OBJECT_KINDS), slot->second); break;
    case EVENT_FENCE: fences_pass(slot->thread, slot->size); break;
    case EVENT_STORED: store_atomic(slot); break;
    case EVENT_LOADED: load_atomic(slot); break;
    case EVENT_RACE_WORD:
    case EVENT_RACE_BLOCK:
    case EVENT_RACE_LOCK:
    case EVENT_RACE_READ:
    case EVENT_RACE_WRITE: online_take(slot); break;
    default: break;
    }
}

static void reuse(const struct slot *slot)
{
    struct reuse reuse = {slot->thread, slot->second, slot_kind(slot) == EVENT_FREE};
    drain_has_frees |= slot_kind(slot) == EVENT_FREE;
    flow_forget();
    pages_reuse(&reuse, slot->first & REUSE_MASK, reuse_size(slot));
}

static void take_other(const struct slot *slot)
{
    switch (slot_kind(slot)) {
    case EVENT_LOCK:
    case EVENT_READ_LOCK: acquire(slot); break;
    case EVENT_UNLOCK:
        locks_release(slot->thread, slot->first, (struct release){(enum lock_kind)(slot->size % LOCK_KINDS), slot->size & LOCK_FAILED, slot->second});
        break;
    case EVENT_SIGNAL: signal_object(slot, (enum object_kind)(slot->size % OBJECT_KINDS)); break;
    case EVENT_AWAIT: await_object(slot, (enum object_kind)(slot->size % OBJECT_KINDS)); break;
    case EVENT_REUSE:
    case EVENT_FREE: reuse(slot); break;
    case EVENT_TAKEN: trace_got(slot->first & REUSE_MASK, reuse_size(slot), slot->second); break;
    default: take_rare(slot); break;
    }
}

static inline void take(const struct slot *slot, uint32_t thread)
{
    enum event_kind kind = slot_kind(slot);
    stacks_set(slot_stack(slot));
    if (__builtin_expect(kind == EVENT_READ || kind == EVENT_WRITE, 1)) {
        struct thread *whose = trace_thread(thread);
        pages_mark(slot->first, slot->size);
        if (!thin_is_on || !thin_is_repeat(whose, kind == EVENT_WRITE, slot->first, slot->size))
            trace_access(whose, kind == EVENT_WRITE, slot->first, slot->size, slot->second);
        return;
    }
    struct slot copy = *slot;
    copy.thread = thread;
    take_other(&copy);
}

bool drain(struct ring *ring)
{
    uint64_t begin = atomic_load_explicit(&ring->head, memory_order_relaxed), head = begin;
    const struct slot *slot;
    uint32_t thread;
    while (head - begin < FLUSH_STEP && (slot = lanes_take(ring, head, &thread)) != NULL) {
        take(slot, thread);
        head++;
        if (head % HEAD_STEP == 0)
            atomic_store_explicit(&ring->head, head, memory_order_release);
    }
    atomic_store_explicit(&ring->head, head, memory_order_release);
    return head != begin;
}

bool drain_is_behind(struct ring *ring)
{
    return atomic_load(&ring->head) != atomic_load(&ring->tail);
}

void drain_skip(struct ring *ring)
{
    atomic_fetch_add(&ring->head, 1);
}
