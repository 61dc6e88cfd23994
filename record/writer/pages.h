/* Which pages of the program's memory have words that were accessed, locks or other objects. Memory that is put to a new use matters only there. */
#ifndef ERASER_PAGES_H
#define ERASER_PAGES_H

#include <stdbool.h>
#include <stdint.h>

#include "trace.h"

#define PAGE_BITS 12
/* Pages that were marked lately: most accesses are to one of these again. The heaps of threads are 64 MiB apart, so pages that are this far apart have
 * different places. */
#define RECENT_PAGES 64u
#define HEAP_BITS 26
extern uint64_t recent_pages[RECENT_PAGES];

static inline uint64_t *recent_page(uint64_t page)
{
    return &recent_pages[(page ^ page >> (HEAP_BITS - PAGE_BITS)) % RECENT_PAGES];
}

void pages_mark_new(uint64_t address, uint64_t bytes);

/* Words of these bytes are accessed. */
static inline void pages_mark(uint64_t address, uint64_t bytes)
{
    uint64_t page = address >> PAGE_BITS;
    if (__builtin_expect(*recent_page(page) != page || (address + bytes - 1) >> PAGE_BITS != page, 0))
        pages_mark_new(address, bytes);
}

/* A lock or another object that threads wait for is at this address. */
void pages_mark_lock(uint64_t address);
struct reuse {
    uint32_t thread;
    uint64_t place; /* of the call, or 0 */
    bool is_free;   /* the call gives back a block, and locks in it are no more */
};
/* These bytes are put to a new use: writes the lines for it, and forgets the locks and objects in them. */
void pages_reuse(const struct reuse *reuse, uint64_t address, uint64_t bytes);

#endif
