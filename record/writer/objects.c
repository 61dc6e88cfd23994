#define _GNU_SOURCE
#include "objects.h"

#include <stdbool.h>
#include <stdlib.h>
#include <string.h>

#include "names.h"
#include "pages.h"
#include "trace.h"

/* An object that was signalled. Of one that wasn't, an await orders nothing. */
struct object {
    struct object *next;
    uint64_t address;
    struct label label;
    /* The last signal that was written: its thread, and how many events that thread had then. */
    uint32_t signaller;
    uint64_t events;
    bool has_ended;
    bool is_forgotten; /* no address leads to it, and it is there for those alone for whom it is kept */
    uint32_t kept;     /* for so many threads */
    /* The threads that all signals so far are ordered before: a hash table, of which the entries of this round count. So it is emptied
     * by another number. */
    struct aware *aware;
    uint32_t aware_count, aware_room; /* room: 0 or a power of two */
    uint32_t aware_round;
};
struct aware {
    uint32_t thread, round; /* round 0: never used */
};

/* By lines of 64 bytes, so that the objects in a range are found without looking at all of them. */
#define BUCKET_BITS 18
static struct object *buckets[1u << BUCKET_BITS];

static struct object **bucket_of(uint64_t address)
{
    return &buckets[((address >> 6) * UINT64_C(0x9e3779b97f4a7c15)) >> (64 - BUCKET_BITS)];
}

static struct object *find_object(uint64_t address)
{
    struct object *object = *bucket_of(address);
    while (object && object->address != address)
        object = object->next;
    return object;
}

static struct object *add_object(uint64_t address, enum object_kind kind)
{
    static const char *const kinds[OBJECT_KINDS] = {"atomic", "semaphore", "barrier", "condition", "once", "object", "fence", "exception", "pipe", "region", "socket", "epoll"};
    static unsigned counts[OBJECT_KINDS];
    struct object *object = get_memory(NULL, sizeof *object);
    struct object **bucket = bucket_of(address);
    *object = (struct object){*bucket, address, {make_name(address, kinds[kind], &counts[kind]), address, 0, 0}, 0, 0, false, false, 0, NULL, 0, 0, 1};
    *bucket = object;
    pages_mark_lock(address);
    return object;
}

static void free_unless_kept(struct object *object)
{
    if (object->kept)
        return;
    free(object->label.name);
    free(object->aware);
    free(object);
}

static void remove_object(struct object **place)
{
    struct object *object = *place;
    *place = object->next;
    object->is_forgotten = true;
    free_unless_kept(object);
}

/* ---- Who is aware of all signals ---- */

/* The entry of a thread, or the one that is free for it. A quarter of the entries is free at least. */
static struct aware *find_aware(const struct object *object, uint32_t thread)
{
    uint32_t last = object->aware_room - 1, at = thread * 2654435769u & last;
    while (object->aware[at].round == object->aware_round && object->aware[at].thread != thread)
        at = (at + 1) & last;
    return &object->aware[at];
}

static bool is_aware(const struct object *object, uint32_t thread)
{
    return object->aware_room && find_aware(object, thread)->round == object->aware_round;
}

static void grow_aware(struct object *object)
{
    struct object before = *object;
    object->aware_room = before.aware_room ? 2 * before.aware_room : 4;
    object->aware = get_zeroed(NULL, 0, object->aware_room * sizeof *object->aware);
    for (uint32_t i = 0; i < before.aware_room; i++)
        if (before.aware[i].round == object->aware_round)
            *find_aware(object, before.aware[i].thread) = before.aware[i];
    free(before.aware);
}

/* The thread is not aware yet. */
static void make_aware(struct object *object, uint32_t thread)
{
    if (4 * (object->aware_count + 1) > 3 * object->aware_room)
        grow_aware(object);
    *find_aware(object, thread) = (struct aware){thread, object->aware_round};
    object->aware_count++;
}

static void make_none_aware(struct object *object)
{
    object->aware_count = 0;
    if (++object->aware_round == 0) {
        memset(object->aware, 0, object->aware_room * sizeof *object->aware);
        object->aware_round = 1;
    }
}

/* ---- Signals and awaits ---- */

/* A second signal of a thread that has written nothing since says nothing new. Whoever knew all signals before knows all but this one,
 * and its own thread knows this one as well. */
bool objects_signal(uint32_t number, uint64_t address, enum object_kind kind, uint64_t place)
{
    struct thread *thread = trace_thread(number);
    struct object *object = find_object(address);
    if (object && object->has_ended) {
        objects_forget(address, 1);
        object = NULL;
    }
    bool knows_all = !object || is_aware(object, number);
    if (!object)
        object = add_object(address, kind);
    else if (object->signaller == number && object->events == thread->events)
        return false;
    trace_lock(thread, VERB_SIGNAL, &object->label, place);
    object->signaller = number;
    object->events = thread->events;
    make_none_aware(object);
    if (knows_all)
        make_aware(object, number);
    return true;
}

bool objects_have_news(uint32_t number, uint64_t address)
{
    const struct object *object = find_object(address);
    return object && !is_aware(object, number);
}

/* An await of a thread that knows all signals orders nothing: one that looks at a flag again and again, for example. */
static bool await(uint32_t number, struct object *object, uint64_t place)
{
    if (!object || is_aware(object, number))
        return false;
    trace_lock(trace_thread(number), VERB_AWAIT, &object->label, place);
    make_aware(object, number);
    return true;
}

bool objects_await(uint32_t number, uint64_t address, uint64_t place)
{
    return await(number, find_object(address), place);
}

void objects_let_go(uint32_t number, uint64_t address, enum object_kind kind, uint64_t place)
{
    if (!find_object(address))
        return;
    objects_signal(number, address, kind, place);
    objects_await(number, address, place);
}

/* ---- Objects that are kept ---- */

struct object *objects_keep(uint64_t address)
{
    struct object *object = find_object(address);
    object->kept++;
    return object;
}

void objects_await_kept(uint32_t number, struct object *object, uint64_t place)
{
    await(number, object, place);
}

void objects_give_up(struct object *object)
{
    object->kept--;
    if (object->is_forgotten)
        free_unless_kept(object);
}

/* ---- The end of an object ---- */

void objects_forget(uint64_t address, uint64_t bytes)
{
    for (uint64_t line = address & ~UINT64_C(63); line < address + bytes; line += 64)
        for (struct object **place = bucket_of(line); *place;)
            if ((*place)->address >= address && (*place)->address < address + bytes)
                remove_object(place);
            else
                place = &(*place)->next;
}

void objects_end(uint64_t address)
{
    struct object *object = find_object(address);
    if (object)
        object->has_ended = true;
}
