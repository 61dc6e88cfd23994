#include "emit.h"

#if IS_ONLINE

#include "blocks.h"

#include <sched.h>
#include <sys/mman.h>
#include <sys/syscall.h>
#include <unistd.h>

/* A block of up to 2^(n + 1) bytes, and more than 2^n, is of class n. At most one of them begins in each 2^n bytes, and it ends in these or the next two. So
 * a block has one place, and what has an address is in one of three places of each class. */
enum { FIRST_CLASS = 4, LAST_CLASS = 47, ROOM_BITS = 16, REACH = 2 };

/* `begin` is 0 if it is empty, and IN_USE while a thread is at work on the rest. That thread is in an event, so no signal comes, and others may wait. */
#define IN_USE 1u
struct place {
    _Atomic uint64_t begin;
    struct block block;
};
static struct place *places;

static unsigned class_of(uint64_t size)
{
    return size <= UINT64_C(2) << FIRST_CLASS ? FIRST_CLASS : 63 - (unsigned)__builtin_clzll(size - 1);
}

static struct place *place_of(unsigned class, uint64_t nth)
{
    return &places[((nth << 6 | class) * UINT64_C(0x9e3779b97f4a7c15)) >> (64 - ROOM_BITS)];
}

static uint64_t take_place(struct place *place)
{
    uint64_t begin;
    while ((begin = atomic_exchange_explicit(&place->begin, IN_USE, memory_order_acquire)) == IN_USE)
        sched_yield();
    return begin;
}

static void leave_place(struct place *place, uint64_t begin)
{
    atomic_store_explicit(&place->begin, begin, memory_order_release);
}

void blocks_begin(void)
{
    const size_t size = sizeof *places << ROOM_BITS;
    if (places)
        syscall(SYS_munmap, places, size);
    long got = syscall(SYS_mmap, NULL, size, PROT_READ | PROT_WRITE, MAP_PRIVATE | MAP_ANONYMOUS | MAP_NORESERVE, -1, 0);
    places = got == -1 ? NULL : (struct place *)got;
}

void blocks_add(struct block block)
{
    unsigned class = class_of(block.size);
    if (!places || class > LAST_CLASS)
        return;
    struct place *place = place_of(class, block.begin >> class);
    take_place(place);
    place->block = block;
    leave_place(place, block.begin);
}

void blocks_forget(uint64_t begin, uint64_t size)
{
    for (unsigned class = class_of(size); places && class >= FIRST_CLASS; class--) {
        struct place *place = place_of(class, begin >> class);
        uint64_t there = atomic_load_explicit(&place->begin, memory_order_relaxed);
        if (there != begin && there != IN_USE)
            continue;
        there = take_place(place);
        leave_place(place, there == begin ? 0 : there);
        if (there == begin)
            return;
    }
}

static bool is_in(struct place *place, uint64_t address, struct block *found)
{
    uint64_t begin = atomic_load_explicit(&place->begin, memory_order_relaxed);
    if (!begin || begin > address)
        return false;
    begin = take_place(place);
    bool is = begin && address >= begin && address - begin < place->block.size;
    if (is)
        *found = place->block;
    leave_place(place, begin);
    return is;
}

bool blocks_find(uint64_t address, struct block *found)
{
    for (unsigned class = FIRST_CLASS; places && class <= LAST_CLASS; class++)
        for (uint64_t back = 0; back <= REACH && back <= address >> class; back++)
            if (is_in(place_of(class, (address >> class) - back), address, found))
                return true;
    return false;
}

#endif
