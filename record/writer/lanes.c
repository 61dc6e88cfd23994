#define _GNU_SOURCE
#include "lanes.h"

#include <errno.h>
#include <stdbool.h>
#include <stddef.h>
#include <sys/mman.h>
#include <sys/syscall.h>
#include <unistd.h>

#include "recording.h"

/* A thread sees how far the writer has come in its lane once in this number of events. */
#define HEAD_STEP 512

/* What the writer knows of a lane. */
struct reader {
    const struct slot *slots;
    struct lane *lane;
    uint32_t mask;
    uint32_t head; /* the position of its first event that was not taken */
    uint32_t next; /* in the list: the lane's number and 1, or 0 */
    bool is_followed, is_waiting;
};
static struct reader readers[LANES];
static uint32_t followed; /* no lane from this one on is followed */

/* Most threads wait for something, and an event should not have to be looked for in their lanes. So a lane whose first event is published stands here by
 * its ticket, unless that of another lane took its place: its number and 1. A lane whose first event was not published yet is in a list, of which the
 * first had events last. */
#define OWNER_BITS 16
static uint16_t owners[1u << OWNER_BITS];
static uint32_t waiting;
static uint32_t takes_seen;

static inline uint32_t number_of(const struct reader *reader)
{
    return (uint32_t)(reader - readers);
}

/* The lane's first event, or NULL if it isn't published yet. */
static inline const struct slot *first_event(const struct reader *reader)
{
    uint32_t head = reader->head;
    const struct slot *slot = &reader->slots[head & reader->mask];
    return atomic_load_explicit(&slot->published, memory_order_acquire) == lane_mark(head) ? slot : NULL;
}

/* All events before the first one have been taken, and are needed no more. */
static inline void tell_head(const struct reader *reader)
{
    atomic_store_explicit(&reader->lane->head, reader->head, memory_order_release);
}

static void wait_for(struct reader *reader)
{
    if (reader->is_waiting)
        return;
    reader->is_waiting = true;
    reader->next = waiting;
    waiting = number_of(reader) + 1;
}

/* Notes a lane by its first event. */
static inline void note(struct reader *reader)
{
    const struct slot *first = first_event(reader);
    if (__builtin_expect(first != NULL, 1))
        owners[(uint16_t)first->ticket] = (uint16_t)(number_of(reader) + 1);
    else
        wait_for(reader);
}

/* What an old entry by a ticket finds of a lane that is free: no event. */
static const struct slot nothing;

/* Of lanes that only many threads need, no memory is kept. */
static void give_free(struct ring *ring, struct reader *reader)
{
    struct lane *lane = reader->lane;
    if (number_of(reader) >= LARGE_LANES)
        madvise((void *)(uintptr_t)reader->slots, (reader->mask + UINT64_C(1)) * sizeof *reader->slots, MADV_REMOVE);
    uint32_t first = atomic_load(&ring->first_free);
    *reader = (struct reader){.slots = &nothing};
    atomic_store(&lane->task, 0);
    atomic_store(&lane->state, LANE_FREE);
    while (number_of(reader) < first && !atomic_compare_exchange_weak(&ring->first_free, &first, number_of(reader)))
        ;
}

/* Whether no thread puts events into a lane of which all were taken. */
static bool is_left(const struct reader *reader)
{
    return atomic_load_explicit(&reader->lane->state, memory_order_acquire) == LANE_LEFT && reader->lane->end == reader->head;
}

/* Some threads of the C library end unseen, such as those of timers. Once in this number of lanes that are taken, those of threads that are gone are
 * called left. */
#define TAKES_TO_LOOK 256

static void look_for_gone(struct ring *ring)
{
    uint32_t owner = atomic_load(&ring->owner);
    if (!recording_has_owner())
        return;
    for (struct reader *reader = readers; reader < readers + followed; reader++) {
        struct lane *lane = reader->lane;
        uint32_t task = reader->is_waiting && atomic_load(&lane->state) == LANE_TAKEN ? atomic_load(&lane->task) : 0;
        if (!task || syscall(SYS_tgkill, owner, task, 0) == 0 || errno != ESRCH || first_event(reader))
            continue;
        lane->end = reader->head;
        atomic_store(&lane->state, LANE_LEFT);
    }
}

/* The lane's first event that is not before this ticket. What was given up may be published all the same, and is left out. */
static const struct slot *first_from(struct reader *reader, uint32_t ticket)
{
    const struct slot *first;
    while ((first = first_event(reader)) != NULL && (int32_t)(first->ticket - ticket) < 0)
        reader->head++;
    return first;
}

/* Looks at the lanes in the list until one has this ticket. Those that have got an event leave it. */
static struct reader *look_at_waiting(struct ring *ring, uint32_t ticket)
{
    for (uint32_t *place = &waiting; *place;) {
        struct reader *reader = &readers[*place - 1];
        const struct slot *first = first_from(reader, ticket);
        uint32_t next = reader->next;
        if (first) {
            *place = next;
            reader->is_waiting = false;
            if (first->ticket == ticket)
                return reader;
            note(reader);
            continue;
        }
        tell_head(reader);
        if (is_left(reader)) {
            give_free(ring, reader);
            *place = next;
        } else
            place = &reader->next;
    }
    return NULL;
}

/* Looks for the ticket in the lanes that are not in the list. Another lane may have taken its place by the ticket, or an event before it is given up. */
static struct reader *look_at_others(uint32_t ticket)
{
    for (struct reader *reader = readers; reader < readers + followed; reader++) {
        if (!reader->is_followed || reader->is_waiting)
            continue;
        const struct slot *first = first_from(reader, ticket);
        if (first && first->ticket == ticket)
            return reader;
        if (!first)
            wait_for(reader);
    }
    return NULL;
}

/* Lanes that were taken since. */
static void follow_new(struct ring *ring)
{
    uint32_t takes = atomic_load(&ring->takes);
    if (takes == takes_seen)
        return;
    if (takes / TAKES_TO_LOOK != takes_seen / TAKES_TO_LOOK)
        look_for_gone(ring);
    takes_seen = takes;
    followed = atomic_load(&ring->lanes_used);
    for (uint32_t at = 0; at < followed; at++) {
        struct lane *lane = &ring->lanes[at];
        if (readers[at].is_followed || atomic_load_explicit(&lane->state, memory_order_acquire) == LANE_FREE)
            continue;
        readers[at] = (struct reader){&ring->slots[lane_begin(at)], lane, lane_slots(at) - 1, atomic_load(&lane->head), 0, true, false};
        note(&readers[at]);
    }
}

static __attribute__((noinline)) struct reader *look_everywhere(struct ring *ring, uint64_t ticket)
{
    if (atomic_load_explicit(&ring->tail, memory_order_relaxed) == ticket)
        return NULL;
    struct reader *reader = look_at_waiting(ring, (uint32_t)ticket);
    if (!reader) {
        follow_new(ring);
        reader = look_at_others((uint32_t)ticket);
    }
    return reader;
}

const struct slot *lanes_take(struct ring *ring, uint64_t ticket, uint32_t *thread)
{
    uint32_t owner = owners[(uint16_t)ticket];
    struct reader *reader = &readers[owner ? owner - 1 : 0];
    const struct slot *slot = owner ? first_event(reader) : NULL;
    if (__builtin_expect(!slot || slot->ticket != (uint32_t)ticket, 0)) {
        reader = look_everywhere(ring, ticket);
        if (!reader)
            return NULL;
        slot = first_event(reader);
    }
    *thread = reader->lane->thread;
    if (reader->head % HEAD_STEP == 0)
        tell_head(reader);
    reader->head++;
    note(reader);
    return slot;
}
