/* Accesses that a thread repeats have no event, if the ring asks for that: what the writer would leave out (record/writer/thin.h), and a bit less.
 *
 * A table knows of units of 8 bytes the last event there, and what its thread has accessed in a row. A thread looks there before an access, and notes the
 * access there when its event is published, before it is made. Of two events the one with the later ticket stays, and leaves nothing of what was known before.
 * So while a thread finds its own note, an event of another thread that is later in the trace is still being recorded, and its access not made: the
 * repeat may as well have come before it. */
#ifndef ERASER_REPEATS_H
#define ERASER_REPEATS_H

#include <stdatomic.h>
#include <stdbool.h>
#include <stdint.h>

#include "../ring.h"

/* The ticket of the last event, and its thread, or 0. The unit, and which of its bytes the thread has written and read. */
union note {
    struct {
        _Atomic uint64_t event, bytes;
    };
    unsigned __int128 both;
};
#define NOTES (1u << 17)
#define THREAD_BITS 16
#define BYTES_BITS 16
#define READ_BITS 8

/* Who holds locks, by their addresses: a thread or several, and how often. Two locks may have one place. */
union holding {
    struct {
        uint32_t thread, count;
    };
    _Atomic uint64_t both;
};
#define SEVERAL UINT32_MAX
#define HOLDERS (1u << 16)

struct notes {
    _Atomic uint64_t floor;  /* no note of an earlier event counts */
    _Atomic uint64_t begun;  /* how often it was about to be raised */
    _Atomic uint64_t ended;  /* the last of these raises that is over, counted from 1 */
    _Alignas(64) union note all[NOTES];
    union holding holders[HOLDERS];
};

/* Who does it: its number, and the ticket of its last event that is no access. */
struct doer {
    uint32_t thread;
    uint64_t since;
};

/* A table without notes, or NULL. A forked child finds it empty. */
struct notes *notes_make(void);
/* An access has this ticket. */
void notes_add(struct notes *notes, struct ring *ring, struct doer doer, uint64_t ticket, bool is_write, uint64_t address, uint64_t bytes);
/* Memory is put to a new use. */
void notes_forget(struct notes *notes, struct ring *ring, struct doer doer, uint64_t ticket, uint64_t address, uint64_t bytes);
/* All that is known by now. */
void notes_forget_all(struct notes *notes, struct ring *ring);
/* A lock is acquired or released. The writer may take it from another thread by that, which then holds less than it knows. */
void notes_lock(struct notes *notes, struct ring *ring, struct doer doer, bool acquires, uint64_t lock);

static inline union note *note_of(struct notes *notes, uint64_t unit)
{
    return &notes->all[(unit + (unit >> 16) * 40503) % NOTES];
}

static inline uint64_t touched_bytes(uint64_t first, uint64_t end, bool is_write)
{
    return (uint64_t)(0xffu << first & 0xffu >> (8 - end)) << (is_write ? 0 : READ_BITS);
}

/* Whether the note of this event is the thread's own, and counts. */
static inline bool is_own_note(const struct notes *notes, struct doer doer, uint64_t event)
{
    uint64_t ticket = event >> THREAD_BITS;
    return event % (1u << THREAD_BITS) == doer.thread && ticket > doer.since && ticket > atomic_load_explicit(&notes->floor, memory_order_acquire);
}

/* The same of bytes of one unit: whether the thread has accessed them so, and nothing came in between. A handler may change the note while it is read. */
static inline bool has_bytes(struct notes *notes, struct doer doer, bool is_write, uint64_t unit, uint64_t touched)
{
    union note *note = note_of(notes, unit);
    uint64_t event = atomic_load_explicit(&note->event, memory_order_acquire), known = atomic_load_explicit(&note->bytes, memory_order_acquire);
    return known >> BYTES_BITS == unit && !(touched & ~(known | (is_write ? 0 : known >> READ_BITS))) && is_own_note(notes, doer, event)
           && atomic_load_explicit(&note->event, memory_order_relaxed) == event;
}

/* The same of an access of several units. */
bool notes_have_all(struct notes *notes, struct doer doer, bool is_write, uint64_t address, uint64_t bytes);

/* The same of any access. */
static inline bool notes_have(struct notes *notes, struct doer doer, bool is_write, uint64_t address, uint64_t bytes)
{
    uint64_t first = address % 8;
    if (address >> REUSE_BITS || doer.thread - 1 >= (1u << THREAD_BITS) - 1)
        return false;
    if (bytes - 1 < 8 - first)
        return has_bytes(notes, doer, is_write, address / 8, touched_bytes(first, first + bytes, true));
    return notes_have_all(notes, doer, is_write, address, bytes);
}

#endif
