#define _GNU_SOURCE
#include "barriers.h"

#include <stdbool.h>
#include <stddef.h>
#include <stdlib.h>

#include "objects.h"
#include "trace.h"

struct barrier {
    struct barrier *next;
    uint64_t address;
    uint64_t count;   /* threads in a round, 0: not known */
    uint64_t arrived; /* threads that arrived so far */
};
static struct barrier *buckets[1024];

/* Where a barrier of this address stands in the table, or would. */
static struct barrier **place_of(uint64_t address)
{
    struct barrier **place = &buckets[address / 32 % 1024];
    while (*place && (*place)->address != address)
        place = &(*place)->next;
    return place;
}

void barriers_begin(uint64_t address, uint64_t count)
{
    struct barrier **place = place_of(address);
    if (!*place) {
        *place = get_memory(NULL, sizeof **place);
        (*place)->next = NULL;
        (*place)->address = address;
    }
    (*place)->count = count;
    (*place)->arrived = 0;
    objects_forget(address, 2);
}

/* Threads that were let go may leave after this. Their objects are kept for them. */
void barriers_end(uint64_t address)
{
    struct barrier **place = place_of(address), *barrier = *place;
    if (!barrier)
        return;
    *place = barrier->next;
    free(barrier);
    objects_end(address + 1);
}

/* Nobody arrives for a round before all have arrived for the one before, so the arrivals come round by round. */
void barriers_arrive(uint32_t number, uint64_t address, uint64_t place)
{
    struct barrier *barrier = *place_of(address);
    struct thread *thread = trace_thread(number);
    bool is_odd = barrier && barrier->count && barrier->arrived++ / barrier->count % 2;
    if (thread->arrived_at)
        objects_give_up(thread->arrived_at);
    objects_signal(number, address + is_odd, OBJECT_BARRIER, place);
    thread->barrier = address;
    thread->arrived_at = objects_keep(address + is_odd);
}

/* A thread that waits at a barrier of OpenMP's may carry out a task meanwhile, and arrive at another barrier in it. Then it finds the object of the first one by
 * its address, which has one round and no other use before all have left. */
void barriers_leave(uint32_t number, uint64_t address, uint64_t place)
{
    struct thread *thread = trace_thread(number);
    if (!thread->arrived_at || thread->barrier != address) {
        objects_await(number, address, place);
        return;
    }
    objects_await_kept(number, thread->arrived_at, place);
    objects_give_up(thread->arrived_at);
    thread->arrived_at = NULL;
}
