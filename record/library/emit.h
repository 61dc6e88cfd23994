/* How the hooks of the library put an event into the ring. */
#ifndef ERASER_EMIT_H
#define ERASER_EMIT_H

#ifndef _GNU_SOURCE
#define _GNU_SOURCE
#endif
#include <stdbool.h>
#include <stddef.h>
#include <stdint.h>

#include "../ring.h"
#include "repeats.h"
#include "stacks.h"

/* The library is built with hidden visibility; a hook is what a program may call. */
#define HOOK __attribute__((visibility("default")))
#define LIKELY(condition) __builtin_expect(!!(condition), 1)
#define UNLIKELY(condition) __builtin_expect(!!(condition), 0)

/* The library of --online is compiled apart, as that of --stacks is. */
#ifndef IS_ONLINE
#define IS_ONLINE 0
#endif
/* Blocks that the program gets are recorded, or known for the reports of --online. */
#define KEEPS_BLOCKS KEEPS_STACKS
#define CALLER ((uint64_t)(uintptr_t)__builtin_return_address(0))

/* Where this process records. It stands in a page that the kernel clears in a forked child, which so records nothing, however it was
 * forked. */
struct attachment {
    struct ring *ring;
    bool orders; /* what orders threads is recorded as well */
    _Atomic uint8_t loads; /* for what loads that don't acquire are recorded: some file of the program asks for fences, or the ring for flow */
    bool was_refused; /* this process asked for a ring, and there is none for it */
    bool shakes; /* threads wait at random, as `seed` says */
    bool notes_atomics; /* it orders or shakes, and atomic operations have a part in it */
    struct notes *notes; /* if repeats have no event */
    uint64_t seed;
};
extern struct attachment *attached;

/* Tickets of events that have none, or don't know it yet. */
#define TICKET_NONE 0u
#define TICKET_DRAWING UINT64_MAX

/* A thread's events of one depth: a signal handler that interrupts an event puts its own into another lane. So the tickets of a lane's events rise. */
struct course {
    struct slot *slots; /* of its lane, NULL if it has none yet */
    uint32_t mask;      /* the number of slots, less 1 */
    uint32_t next;      /* the position of the next event, or of the one that was begun */
    uint32_t full;      /* the position for which there may be no room */
    uint32_t lane;
    uint64_t ticket;    /* of the event that was begun. If none was, this is TICKET_NONE */
    void *frame;        /* of the function that has begun it. It is right as long as an event is begun: set before and put back after */
};
/* A handler that interrupts an event of a handler that interrupts an event, and so on. Deeper ones lose their events. */
#define DEPTHS 4u

/* What a thread knows of itself. */
struct self {
    uint32_t number;  /* 0 before its first event */
    uint32_t reads_ignored, writes_ignored;
    bool is_beginning; /* what the C library gets memory for is the thread itself */
    bool notes_stores; /* stores that don't release are recorded: it has released by a fence, or the ring asks for flow */
    uint32_t depth;    /* how many events it has begun and not published */
    struct course courses[DEPTHS];
    uint64_t since; /* the ticket of its last event that is no access */
    uint64_t random; /* the state of what it draws at random, and how often it has */
    uint64_t calls;
};
/* Of the initial-exec model, since the dynamic loader calls in before it could make room for any other. */
extern __thread struct self self __attribute__((tls_model("initial-exec")));

/* The course of an event in a thread that has begun others, or NULL if it can't be recorded. */
struct course *emit_prepare(struct ring *ring, struct self *me, void *frame);
/* Waits for room for the event that was begun last, whose course had another frame before. False if there will be none: then it is no event. */
bool emit_wait(struct ring *ring, struct self *me, struct course *course, void *outer_frame);
/* A thread that ends leaves no event open, even if it was cancelled in the middle of one. */
void emit_end_of_thread(void);
/* It has no more events. */
void emit_leave_lanes(void);
void emit_maps(void);
void attach(void);
/* What threads know of their last accesses, with this event. */
void emit_note(struct self *me, uint64_t ticket, const struct slot *slot);
/* Whether a child that was forked is recorded from here on. */
bool attach_child(void);
bool has_instrumented_file(void);
/* Whether code there is in a file that is instrumented. */
bool is_instrumented(uint64_t place);
/* Tells the writer which files the program has, if they have changed since, or if it is a new one. */
void note_files(bool is_new);

static inline bool is_recording(void)
{
    return attached->ring != NULL;
}

static inline bool is_ordering(void)
{
    return attached->orders;
}

void shake_thread(void);

/* Before a thread acquires, signals or starts something. */
static inline void shake(void)
{
    if (UNLIKELY(attached->shakes))
        shake_thread();
}

/* For what a load that doesn't acquire is recorded, or 0. */
static inline uint8_t uses_of_loads(void)
{
    return atomic_load_explicit(&attached->loads, memory_order_relaxed);
}

/* A thread has its number. */
static inline void begin_self(struct ring *ring, uint32_t number)
{
    self.number = number;
    self.notes_stores = ring->flows;
}

/* An event is begun or ended for the handlers that interrupt this thread. */
static inline void set_depth(struct self *me, uint32_t depth)
{
    __atomic_signal_fence(__ATOMIC_SEQ_CST);
    __atomic_store_n(&me->depth, depth, __ATOMIC_RELAXED);
    __atomic_signal_fence(__ATOMIC_SEQ_CST);
}

static inline void set_ticket(struct course *course, uint64_t ticket)
{
    __atomic_signal_fence(__ATOMIC_SEQ_CST);
    __atomic_store_n(&course->ticket, ticket, __ATOMIC_RELAXED);
    __atomic_signal_fence(__ATOMIC_SEQ_CST);
}

/* Online: tells the detector of an event that a hook with this stack pointer was called for. */
void online_take(enum event_kind kind, uint32_t size, uint64_t first, uint64_t second, uintptr_t pointer);
/* Starts the detector of a ring. False if there is no memory for it. */
bool online_begin(struct ring *ring);
/* The number of this thread, as the detector has it. 0 if it can't have one. */
uint32_t online_number(void);
/* This thread counts as ended. */
void online_end_of_thread(void);

/* An event that has its ticket and is not published yet. */
struct draft {
    struct self *me;
    struct course *course;
    uint64_t ticket;
    void *outer_frame; /* what the course had before */
};

/* Draws a ticket in the ring for one event. There is room for it before, since no thread may wait once it has its ticket. A signal handler may come in between
 * anywhere and record events of its own: once this one is begun, they take another lane, and later tickets if this one has its ticket. Before that they
 * leave all but the position as they found it. False if the event can't be recorded. The caller must still run when it publishes the event, since its
 * frame says that the event was not left. */
static inline __attribute__((always_inline)) bool ring_draw(struct draft *draft)
{
    struct ring *ring = attached->ring;
    if (LIKELY(!ring))
        return false;
    struct self *me = &self;
    struct course *course = &me->courses[0];
    if (UNLIKELY(me->depth || atomic_load_explicit(&ring->stop, memory_order_relaxed))) {
        course = emit_prepare(ring, me, __builtin_frame_address(0));
        if (!course)
            return false;
    }
    void *outer_frame = course->frame;
    course->frame = __builtin_frame_address(0);
    set_depth(me, (uint32_t)(course - me->courses) + 1);
    if (UNLIKELY(course->next == course->full) && !emit_wait(ring, me, course, outer_frame))
        return false;
    set_ticket(course, TICKET_DRAWING);
    uint64_t ticket = atomic_fetch_add_explicit(&ring->tail, 1, memory_order_seq_cst);
    set_ticket(course, ticket);
    *draft = (struct draft){me, course, ticket, outer_frame};
    return true;
}

/* The calls in which this event is made. Most accesses are in a function that has had one already. */
static inline __attribute__((always_inline)) uint32_t emit_stack(enum event_kind kind, uint64_t place)
{
    if (!KEEPS_STACKS)
        return 0;
    uintptr_t pointer = (uintptr_t)__builtin_dwarf_cfa();
    if (kind > EVENT_WRITE)
        return kind < 32 && KINDS_WITH_PLACES >> kind & 1 && place ? stack_look_from(pointer, place) : 0;
    const struct stack *stack = stack_now;
    if (LIKELY(stack != NULL)) {
        const struct frame *top = stack->top;
        if (LIKELY(pointer <= top->pointer && pointer > stack->low && top->stack != STACK_UNKNOWN))
            return top->stack;
    }
    return stack_look(pointer);
}

static inline __attribute__((always_inline)) void ring_publish(const struct draft *draft, enum event_kind kind, uint32_t stack, uint32_t size, uint64_t first,
                                                                uint64_t second)
{
    struct course *course = draft->course;
    struct slot *slot = &course->slots[course->next & course->mask];
    slot->ticket = (uint32_t)draft->ticket;
    slot->kind_and_stack = (uint32_t)kind | stack << KIND_BITS;
    slot->size = size;
    slot->first = first;
    slot->second = second;
    atomic_store_explicit(&slot->published, lane_mark(course->next), memory_order_release);
    __atomic_signal_fence(__ATOMIC_SEQ_CST);
    course->next++;
    if (UNLIKELY(attached->notes != NULL))
        emit_note(draft->me, draft->ticket, slot);
    set_ticket(course, TICKET_NONE);
    set_depth(draft->me, (uint32_t)(course - draft->me->courses));
    course->frame = draft->outer_frame;
}

/* Begins an event of which it is not known yet what it is. What is told to a detector has no ticket: it is in time when it is told. */
static inline __attribute__((always_inline)) bool emit_draw(struct draft *draft)
{
    return IS_ONLINE ? is_recording() : ring_draw(draft);
}

static inline __attribute__((always_inline)) void emit_publish(const struct draft *draft, enum event_kind kind, uint32_t size, uint64_t first, uint64_t second)
{
    if (IS_ONLINE)
        online_take(kind, size, first, second, (uintptr_t)__builtin_dwarf_cfa());
    else
        ring_publish(draft, kind, emit_stack(kind, second), size, first, second);
}

/* Records one event, or tells the detector of it. */
static inline __attribute__((always_inline)) void emit(enum event_kind kind, uint32_t size, uint64_t first, uint64_t second)
{
    struct draft draft;
    if (IS_ONLINE && IS_FOR_DETECTOR(kind)) {
        if (UNLIKELY(is_recording()))
            online_take(kind, size, first, second, (uintptr_t)__builtin_dwarf_cfa());
    } else if (ring_draw(&draft))
        ring_publish(&draft, kind, emit_stack(kind, second), size, first, second);
}

/* Whether an access needs no event. A handler that interrupts an event asks for none: what the event changes may not be changed yet. */
static inline __attribute__((always_inline)) bool is_repeat(bool is_write, const volatile void *address, uint64_t size)
{
    struct notes *notes = attached->notes;
    struct self *me = &self;
    if (IS_ONLINE || LIKELY(!notes) || me->depth || !notes_have(notes, (struct doer){me->number, me->since}, is_write, (uintptr_t)address, size))
        return false;
    attached->ring->lanes[me->courses[0].lane].repeats++;
    return true;
}

static inline __attribute__((always_inline)) void emit_read(const volatile void *address, uint32_t size, uint64_t site)
{
    if (LIKELY(!self.reads_ignored) && !is_repeat(false, address, size))
        emit(EVENT_READ, size, (uintptr_t)address, site);
}

static inline __attribute__((always_inline)) void emit_write(const volatile void *address, uint32_t size, uint64_t site)
{
    if (LIKELY(!self.writes_ignored) && !is_repeat(true, address, size))
        emit(EVENT_WRITE, size, (uintptr_t)address, site);
}

/* Memory is about to be given back in the course of this event: others may have it before that is published. */
void emit_forget(const struct draft *draft, const volatile void *address, uint64_t size);

/* Whether memory can be in an event. No program has other memory. */
static inline bool is_memory(const volatile void *address, uint64_t size)
{
    return size && size <= REUSE_MASK && (uintptr_t)address <= REUSE_MASK;
}

/* How memory stands in an event, beside the lower bits of its size. */
static inline uint64_t packed(const volatile void *address, uint64_t size)
{
    return (uintptr_t)address | (size >> 32) << REUSE_BITS;
}

/* Memory gets a new use by a call at this place, or by none if it is 0. */
static inline void emit_memory(const volatile void *address, uint64_t size, uint64_t place)
{
    if (is_memory(address, size))
        emit(EVENT_REUSE, (uint32_t)size, packed(address, size), place);
}

/* A block that a call gives back, as an allocator has it. */
static inline void emit_free(const volatile void *block, uint64_t size, uint64_t place)
{
    emit(EVENT_FREE, (uint32_t)size, packed(block, size), place);
}

/* A block that a call at this place gives to the program, or a new thread's stack. It is no event of the trace: once the writer takes no more events, none
 * is lost with it. (A thread may count one at the moment at which the writer stops.) */
static inline void emit_taken(const volatile void *block, uint64_t size, uint64_t place)
{
    if (block && is_recording() && !self.is_beginning && is_memory(block, size) && !atomic_load_explicit(&attached->ring->stop, memory_order_relaxed))
        emit(EVENT_TAKEN, (uint32_t)size, packed(block, size), place);
}

static inline void emit_reuse(const volatile void *address, uint64_t size)
{
    emit_memory(address, size, 0);
}

/* The program or an allocator says that memory changes hands, by an order that may be in no event. */
void emit_hand_over(const volatile void *address, uint64_t size);

/* A signal is recorded before what it stands for happens, an await after it. So the await of whoever saw what another thread did comes
 * after that thread's signal. */
static inline void emit_signal(enum object_kind kind, const volatile void *object, uint64_t site)
{
    if (UNLIKELY(is_ordering()))
        emit(EVENT_SIGNAL, kind, (uintptr_t)object, site);
}

static inline void emit_await(enum object_kind kind, const volatile void *object, uint64_t site)
{
    if (UNLIKELY(is_ordering()))
        emit(EVENT_AWAIT, kind, (uintptr_t)object, site);
}

/* What is at this address from now on is another object. */
static inline void emit_object_begin(const volatile void *object)
{
    if (UNLIKELY(is_ordering()))
        emit(EVENT_OBJECT_BEGIN, 0, (uintptr_t)object, 0);
}

/* Nobody signals this object any more. A thread that was let go may still record its await. */
static inline void emit_object_end(const volatile void *object)
{
    if (UNLIKELY(is_ordering()))
        emit(EVENT_OBJECT_END, 0, (uintptr_t)object, 0);
}

/* After a call that acquires a lock or fails, and never waits. That it failed is recorded only if the ring asks for flow. */
static inline __attribute__((always_inline)) void emit_try(enum event_kind acquire, enum lock_kind kind, const volatile void *lock, bool is_acquired, uint64_t site)
{
    if (is_acquired)
        emit(acquire, kind | LOCK_TRIED, (uintptr_t)lock, site);
    else if (UNLIKELY(is_recording()) && attached->ring->flows)
        emit(acquire, kind | LOCK_TRIED | LOCK_FAILED, (uintptr_t)lock, site);
}

/* An access of any number of bytes. */
void emit_range(enum event_kind kind, const volatile void *address, uint64_t size, uint64_t site);

/* The next definition of a function behind this library's own: the C library's, as a rule. */
void *find_real(void **place, const char *name);
#define REAL(function)                                                                            \
    (__extension__({                                                                              \
        static void *place_of_##function;                                                         \
        void *found = __atomic_load_n(&place_of_##function, __ATOMIC_ACQUIRE);                    \
        (__typeof__(&function))(LIKELY(found != NULL) ? found : find_real(&place_of_##function, #function)); \
    }))

/* The same, or NULL if there is none. */
#define NEXT(function) (__extension__({ __typeof__(&function) next_found = REAL(function); is_found((void *)(uintptr_t)next_found) ? next_found : NULL; }))
bool is_found(const void *function);

/* The definition of a name that other files find. The program's own file is searched first, and then this library. */
const void *find_first(const char *name);
/* The definition behind this library's. */
const void *find_behind(const char *name);
bool is_in_one_file(const void *one, const void *other);
/* Whether this is a function of this library. */
bool is_here(const void *function);

/* FIND_EARLY(function) defines find_FUNCTION, for a function that a signal handler may call. Finding it takes a lock of the dynamic
 * loader, which the interrupted thread may hold, so that is done before there is a handler. */
#define FIND_EARLY(function)                                                                      \
    static __typeof__(&function) find_##function(void) { return REAL(function); }                 \
    static __attribute__((constructor)) void find_early_##function(void) { find_##function(); }

#endif
