#include "emit.h"

#if IS_ONLINE

#include "releases.h"

#include <sched.h>
#include <string.h>

#define ERASER_OWN_PAGES
#include "../../capi/eraser_memory.h"

_Atomic uint64_t release_count;

/* By their addresses. Where a lock would stand, or behind that, there it is, with no gap before it. At most half of the room is taken. */
static struct released {
    uint64_t lock, number; /* number 0: nothing stands here */
} *table;
static uint32_t room, count;

/* No signal comes while it is taken, since those that come within an event are deferred. */
static atomic_bool is_taken;

static void take_table(void)
{
    while (atomic_exchange_explicit(&is_taken, true, memory_order_acquire))
        sched_yield();
}

static void leave_table(void)
{
    atomic_store_explicit(&is_taken, false, memory_order_release);
}

static uint32_t home_of(uint64_t lock)
{
    return (uint32_t)(lock * UINT64_C(0x9e3779b97f4a7c15) >> 32) & (room - 1);
}

/* Where a lock stands, or the gap where it may be put. */
static struct released *find(uint64_t lock)
{
    uint32_t at = home_of(lock);
    while (table[at].number && table[at].lock != lock)
        at = (at + 1) & (room - 1);
    return &table[at];
}

static bool grow(void)
{
    struct released *old = table;
    uint32_t old_room = room, new_room = room ? 2 * room : 64;
    struct released *grown = eraser_take(new_room * sizeof *grown);
    if (!grown)
        return false;
    memset(grown, 0, new_room * sizeof *grown);
    table = grown;
    room = new_room;
    for (uint32_t at = 0; at < old_room; at++)
        if (old[at].number)
            *find(old[at].lock) = old[at];
    eraser_give(old);
    return true;
}

bool note_release(uint64_t lock)
{
    take_table();
    bool has_room = 2 * (count + 1) <= room || grow();
    if (has_room) {
        struct released *found = find(lock);
        uint64_t number = atomic_load_explicit(&release_count, memory_order_relaxed) + 1;
        count += !found->number;
        *found = (struct released){lock, number};
        atomic_store_explicit(&release_count, number, memory_order_release);
    }
    leave_table();
    return has_room;
}

uint64_t last_release(uint64_t lock)
{
    take_table();
    uint64_t number = room ? find(lock)->number : 0;
    leave_table();
    return number;
}

/* What stands behind the gap moves up, where it may. */
static void close_gap(uint32_t gap)
{
    for (uint32_t at = (gap + 1) & (room - 1); table[at].number; at = (at + 1) & (room - 1))
        if (((at - home_of(table[at].lock)) & (room - 1)) >= ((at - gap) & (room - 1))) {
            table[gap] = table[at];
            gap = at;
        }
    table[gap].number = 0;
}

void forget_release(uint64_t lock)
{
    if (!atomic_load_explicit(&release_count, memory_order_relaxed))
        return;
    take_table();
    struct released *found = room ? find(lock) : NULL;
    if (found && found->number) {
        count--;
        close_gap((uint32_t)(found - table));
    }
    leave_table();
}

void releases_begin(void)
{
    table = NULL;
    room = count = 0;
    atomic_store(&release_count, 0);
    leave_table();
}

#endif
