/* Random accesses of three threads, for the library's repeats.c, which this is linked with: notes SEED EVENTS. An event gets its ticket at one moment and is
 * noted at a later one, and in between come those of other threads. Prints how many accesses needed no event. Ends with a status other than 0 if one of them
 * is no repeat by the list of all events, of those that were noted by then. */
#include "../../../record/library/repeats.h"

#include <stdio.h>
#include <stdlib.h>
#include <sys/mman.h>

enum { THREADS = 3, PLACES = 3, ROOM = 64, MOST = 4000, LOCKS = 3 };
/* The note of a unit is that of the unit APART behind it. Locks lie behind the bytes of a place. */
#define FIRST UINT64_C(0x7f0000001000)
#define APART (UINT64_C(8) << 33)
#define LARGE 40000u

enum what { READ, WRITE, REUSE, LOCK, READ_LOCK, UNLOCK };
struct event {
    enum what what;
    unsigned thread;
    uint64_t ticket, address, size;
    bool loses[THREADS + 1]; /* the threads that a lock is taken from */
    bool is_noted;
};
static struct event events[MOST];
static unsigned count, open_event[THREADS + 1], depths[LOCKS][THREADS + 1];
static bool reads[LOCKS];
static uint64_t since[THREADS + 1], seed;
static struct notes *notes;
static struct ring *ring;

static unsigned any(unsigned limit)
{
    seed = seed * UINT64_C(6364136223846793005) + 1442695040888963407;
    return (unsigned)(seed >> 33) % limit;
}

/* Whether an event that was noted ends what a thread knows of the unit of a byte. */
static bool ends(const struct event *event, unsigned thread, uint64_t byte)
{
    uint64_t unit = byte / 8;
    bool is_there = event->what <= REUSE && event->address / 8 <= unit && unit <= (event->address + event->size - 1) / 8;
    return event->is_noted && (event->loses[thread] || (is_there && (event->what == REUSE || event->thread != thread)));
}

static bool is_repeated(unsigned thread, bool is_write, uint64_t byte)
{
    uint64_t last = since[thread];
    for (unsigned i = 0; i < count; i++)
        if (ends(&events[i], thread, byte) && events[i].ticket > last)
            last = events[i].ticket;
    for (unsigned i = 0; i < count; i++)
        if (events[i].thread == thread && events[i].ticket > last && (events[i].what == WRITE || (events[i].what == READ && !is_write))
            && byte - events[i].address < events[i].size && events[i].is_noted)
            return true;
    return false;
}

static void begin(unsigned thread, enum what what, uint64_t address, uint64_t size)
{
    events[count] = (struct event){what, thread, atomic_fetch_add(&ring->tail, 1), address, size, {false}, false};
    open_event[thread] = ++count;
}

static void drop(struct event *event, unsigned lock, unsigned whom)
{
    if (whom != event->thread && depths[lock][whom])
        event->loses[whom] = true;
    depths[lock][whom] = 0;
}

static void drop_others(struct event *event, unsigned lock)
{
    for (unsigned whom = 1; whom <= THREADS; whom++)
        if (whom != event->thread)
            drop(event, lock, whom);
}

/* What the writer makes of a lock's events (record/writer/locks.c). */
static void hold(struct event *event, unsigned lock)
{
    unsigned *depth = depths[lock], holder = event->thread;
    if (event->what != UNLOCK) {
        if (!depth[holder] && (event->what == LOCK || !reads[lock]))
            drop_others(event, lock);
        if (!depth[holder]++)
            reads[lock] = event->what == READ_LOCK;
        return;
    }
    for (unsigned whom = 1; !depth[event->thread] && !reads[lock] && whom <= THREADS; whom++)
        holder = depth[whom] ? whom : holder;
    if (depth[holder] == 1)
        drop(event, lock, holder);
    else if (depth[holder])
        depth[holder]--;
}

static void note(unsigned thread)
{
    struct event *event = &events[open_event[thread] - 1];
    struct doer doer = {thread, since[thread]};
    open_event[thread] = 0;
    if (event->what <= WRITE)
        notes_add(notes, ring, doer, event->ticket, event->what == WRITE, event->address, event->size);
    else if (event->what == REUSE) {
        notes_forget(notes, ring, doer, event->ticket, event->address, event->size);
        for (unsigned lock = 0; lock < LOCKS; lock++)
            if (FIRST + ROOM + 8 * lock - event->address < event->size) {
                drop_others(event, lock);
                drop(event, lock, thread);
            }
    } else {
        notes_lock(notes, ring, doer, event->what != UNLOCK, event->address);
        hold(event, (unsigned)(event->address - FIRST - ROOM) / 8 % LOCKS);
    }
    if (event->what > WRITE)
        since[thread] = event->ticket;
    event->is_noted = true;
}

/* Begins an event, unless it is a repeat. False if it is none and taken for one. */
static bool act(unsigned thread, unsigned *repeats)
{
    unsigned which = any(40), size = any(3) ? 1u << any(4) : 1 + any(20);
    uint64_t place = any(8) ? 0 : any(PLACES), address = FIRST + place * APART + any(any(4) ? 12 : ROOM - 20);
    if (which < 2)
        begin(thread, LOCK + any(3), FIRST + ROOM + 8 * any(LOCKS), 8);
    else if (which == 2)
        begin(thread, REUSE, address, any(8) ? size : LARGE);
    else if (!notes_have(notes, (struct doer){thread, since[thread]}, which % 2, address, size))
        begin(thread, which % 2 ? WRITE : READ, address, any(60) ? size : LARGE);
    else {
        ++*repeats;
        for (uint64_t byte = address; byte < address + size; byte++)
            if (!is_repeated(thread, which % 2, byte))
                return fprintf(stderr, "no repeat: thread %u, %u bytes at %llx\n", thread, size, (unsigned long long)address), false;
    }
    return true;
}

int main(int words, char **given)
{
    unsigned repeats = 0, thread = 1;
    if (words != 3)
        return 2;
    seed = strtoull(given[1], NULL, 10);
    ring = mmap(NULL, sizeof *ring, PROT_READ | PROT_WRITE, MAP_PRIVATE | MAP_ANONYMOUS | MAP_NORESERVE, -1, 0);
    notes = notes_make();
    if (ring == MAP_FAILED || !notes)
        return fprintf(stderr, "no memory\n"), 1;
    ring->tail = FIRST_TICKET;
    for (unsigned left = (unsigned)atoi(given[2]); left && count < MOST; left--) {
        thread = any(3) ? thread : 1 + any(THREADS);
        if (open_event[thread] && any(3))
            note(thread);
        else if (!open_event[thread] && !act(thread, &repeats))
            return 1;
    }
    printf("%u\n", repeats);
    return 0;
}
