#define _GNU_SOURCE
#include "pages.h"

#include <stdbool.h>
#include <stdlib.h>
#include <string.h>

#include "locks.h"
#include "objects.h"

#define REGION_BITS 27
#define ADDRESS_BITS 48
#define REGION_PAGES (1u << (REGION_BITS - PAGE_BITS))
#define REGIONS (1u << (ADDRESS_BITS - REGION_BITS))

/* One bit for each page of 128 MiB. */
struct region {
    uint64_t accessed[REGION_PAGES / 64];
    uint64_t locked[REGION_PAGES / 64];
};
static struct region *regions[REGIONS];
/* At first page 0, which no program has in any memory. */
uint64_t recent_pages[RECENT_PAGES];

static struct region *get_region(uint64_t address)
{
    struct region **place = &regions[address >> REGION_BITS];
    if (!*place) {
        *place = get_zeroed(NULL, 0, sizeof **place);
    }
    return *place;
}

static inline uint32_t page_in_region(uint64_t address)
{
    return (uint32_t)(address >> PAGE_BITS) & (REGION_PAGES - 1);
}

void pages_mark_new(uint64_t address, uint64_t bytes)
{
    uint64_t end = (address + bytes - 1) >> PAGE_BITS;
    if (bytes == 0 || end >> (ADDRESS_BITS - PAGE_BITS))
        return;
    for (uint64_t page = address >> PAGE_BITS; page <= end; page++) {
        uint32_t at = page_in_region(page << PAGE_BITS);
        get_region(page << PAGE_BITS)->accessed[at / 64] |= UINT64_C(1) << at % 64;
    }
    *recent_page(end) = end;
}

void pages_mark_lock(uint64_t address)
{
    uint32_t at = page_in_region(address);
    if (address >> ADDRESS_BITS == 0)
        get_region(address)->locked[at / 64] |= UINT64_C(1) << at % 64;
}

/* ---- Reuse ---- */

/* A run of pages with accessed words, for one or few lines. */
struct run {
    const struct reuse *reuse;
    uint64_t begin, end;
};

static void end_run(struct run *run)
{
    if (run->begin < run->end)
        trace_reuse(trace_thread(run->reuse->thread), run->begin, run->end - run->begin, run->reuse->place);
    run->begin = run->end = 0;
}

/* The bytes from `begin` to `end` lie in one page. */
static void reuse_in_page(struct run *run, struct region *region, uint64_t begin, uint64_t end)
{
    uint32_t at = page_in_region(begin);
    uint64_t bit = UINT64_C(1) << at % 64;
    bool is_whole = end - begin == UINT64_C(1) << PAGE_BITS;
    if (region->locked[at / 64] & bit) {
        locks_forget(begin, end - begin, run->reuse->thread, run->reuse->is_free ? run->reuse->place : 0);
        objects_forget(begin, end - begin);
        if (is_whole)
            region->locked[at / 64] &= ~bit;
    }
    if (!(region->accessed[at / 64] & bit))
        return;
    if (is_whole)
        region->accessed[at / 64] &= ~bit;
    if (run->end != begin) {
        end_run(run);
        run->begin = begin;
    }
    run->end = end;
}

void pages_reuse(const struct reuse *reuse, uint64_t address, uint64_t bytes)
{
    struct run run = {reuse, 0, 0};
    uint64_t end = address + bytes;
    memset(recent_pages, 0, sizeof recent_pages);
    if (end > UINT64_C(1) << ADDRESS_BITS)
        return;
    while (address < end) {
        struct region *region = regions[address >> REGION_BITS];
        uint32_t at = page_in_region(address);
        uint64_t unit = UINT64_C(1) << PAGE_BITS;
        if (!region)
            unit = UINT64_C(1) << REGION_BITS;
        else if (!region->accessed[at / 64] && !region->locked[at / 64])
            unit = UINT64_C(64) << PAGE_BITS;
        uint64_t next = (address & ~(unit - 1)) + unit;
        if (next > end)
            next = end;
        if (unit == UINT64_C(1) << PAGE_BITS)
            reuse_in_page(&run, region, address, next);
        address = next;
    }
    end_run(&run);
}
