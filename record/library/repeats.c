#define _GNU_SOURCE
#include "repeats.h"

#include <stddef.h>
#include <sys/mman.h>

/* More units at a time are not looked for: all that is known is forgotten. */
#define MOST_UNITS 4096u
/* A longer access has an event. */
#define MOST_REPEATED 256

struct notes *notes_make(void)
{
#ifdef __GCC_HAVE_SYNC_COMPARE_AND_SWAP_16
    struct notes *notes = mmap(NULL, sizeof *notes, PROT_READ | PROT_WRITE, MAP_PRIVATE | MAP_ANONYMOUS, -1, 0);
    if (notes != MAP_FAILED && madvise(notes, sizeof *notes, MADV_WIPEONFORK) == 0)
        return notes;
#endif
    return NULL;
}

bool notes_have_all(struct notes *notes, struct doer doer, bool is_write, uint64_t address, uint64_t bytes)
{
    uint64_t end = address + bytes, next;
    bool is_repeat = bytes - 1 < MOST_REPEATED;
    for (; is_repeat && address < end; address = next) {
        next = (address | 7) + 1 < end ? (address | 7) + 1 : end;
        is_repeat = has_bytes(notes, doer, is_write, address / 8, touched_bytes(address % 8, next - (address & ~UINT64_C(7)), true));
    }
    return is_repeat;
}

static bool replace(union note *note, const union note *old, const union note *new)
{
#ifdef __GCC_HAVE_SYNC_COMPARE_AND_SWAP_16
    return __sync_bool_compare_and_swap(&note->both, old->both, new->both);
#else
    return (void)note, (void)old, (void)new, true;
#endif
}

static void raise_to(_Atomic uint64_t *value, uint64_t least)
{
    for (uint64_t old = atomic_load(value); old < least && !atomic_compare_exchange_weak(value, &old, least);)
        ;
}

/* An event with a ticket above the new floor was drawn after this raise began. So who notes it sees that the last raise isn't over, or the floor of that one, which
 * began no earlier. A handler may leave a raise by a jump: then it is over once a later one is. */
void notes_forget_all(struct notes *notes, struct ring *ring)
{
    uint64_t number = atomic_fetch_add(&notes->begun, 1) + 1;
    raise_to(&notes->floor, atomic_load(&ring->tail));
    raise_to(&notes->ended, number);
}

static bool is_floor_up(const struct notes *notes)
{
    return atomic_load(&notes->begun) == atomic_load(&notes->ended);
}

static void change(struct notes *notes, struct doer doer, uint64_t ticket, uint64_t unit, uint64_t touched)
{
    union note *note = note_of(notes, unit), old, new;
    do {
        old.event = atomic_load_explicit(&note->event, memory_order_relaxed);
        old.bytes = atomic_load_explicit(&note->bytes, memory_order_relaxed);
        bool goes_on = touched && old.bytes >> BYTES_BITS == unit && is_floor_up(notes) && is_own_note(notes, doer, old.event);
        bool is_late = old.event >> THREAD_BITS > ticket;
        new.event = is_late ? old.event : ticket << THREAD_BITS | doer.thread;
        new.bytes = is_late ? old.bytes >> BYTES_BITS << BYTES_BITS : (goes_on ? old.bytes : unit << BYTES_BITS) | touched;
    } while (!replace(note, &old, &new));
}

void notes_add(struct notes *notes, struct ring *ring, struct doer doer, uint64_t ticket, bool is_write, uint64_t address, uint64_t bytes)
{
    if (bytes > 8 * MOST_UNITS)
        notes_forget_all(notes, ring);
    /* Beyond all memory nobody looks. */
    if (bytes > 8 * MOST_UNITS || address >> REUSE_BITS)
        return;
    doer.thread = doer.thread >> THREAD_BITS ? 0 : doer.thread;
    for (uint64_t end = address + bytes, next; address < end; address = next) {
        next = (address | 7) + 1 < end ? (address | 7) + 1 : end;
        change(notes, doer, ticket, address / 8, touched_bytes(address % 8, next - (address & ~UINT64_C(7)), is_write));
    }
}

static union holding *holder_of(struct notes *notes, uint64_t address)
{
    uint64_t unit = address / 8;
    return &notes->holders[(unit + (unit >> 16) * 40503) % HOLDERS];
}

void notes_forget(struct notes *notes, struct ring *ring, struct doer doer, uint64_t ticket, uint64_t address, uint64_t bytes)
{
    bool has_locks = bytes > 8 * MOST_UNITS;
    for (uint64_t unit = address / 8; bytes && !has_locks && unit <= (address + bytes - 1) / 8; unit++) {
        union holding holder = {.both = atomic_load_explicit(&holder_of(notes, 8 * unit)->both, memory_order_relaxed)};
        has_locks = holder.count && holder.thread != doer.thread;
        change(notes, (struct doer){0, 0}, ticket, unit, 0);
    }
    if (has_locks)
        notes_forget_all(notes, ring);
}

/* A release that isn't known, in a library for example, leaves the count too large, and more is forgotten. */
void notes_lock(struct notes *notes, struct ring *ring, struct doer doer, bool acquires, uint64_t lock)
{
    union holding *holder = holder_of(notes, lock), new;
    uint64_t old = atomic_load(&holder->both);
    bool is_others;
    do {
        new.both = old;
        is_others = new.count ? new.thread != doer.thread : !acquires;
        new.thread = !new.count ? doer.thread : is_others ? SEVERAL : doer.thread;
        new.count = acquires ? new.count + 1 : new.count - (new.count > 0);
    } while (!atomic_compare_exchange_weak(&holder->both, &old, new.both));
    if (is_others)
        notes_forget_all(notes, ring);
}
