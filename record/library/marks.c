#include "emit.h"

#if IS_ONLINE

#include "marks.h"

#include <sys/mman.h>
#include <sys/syscall.h>
#include <unistd.h>

#define PAGE_BITS 12
#define REGION_BITS 30
#define REGIONS (1u << (48 - REGION_BITS))
#define PAGES (1u << (REGION_BITS - PAGE_BITS))

/* A bit for each page, and a bit for each line, 64 of which are a page. No page of this is used before something in it is marked. */
struct region {
    _Atomic uint64_t accessed[PAGES / 64];
    _Atomic uint64_t lines[PAGES];
};
static _Atomic(struct region *) regions[REGIONS];

static __attribute__((noinline)) struct region *make_region(uint64_t address)
{
    _Atomic(struct region *) *place = &regions[address >> REGION_BITS];
    struct region *none = NULL;
    long got = syscall(SYS_mmap, NULL, sizeof(struct region), PROT_READ | PROT_WRITE, MAP_PRIVATE | MAP_ANONYMOUS | MAP_NORESERVE, -1, 0);
    if (got == -1)
        return NULL;
    if (atomic_compare_exchange_strong(place, &none, (struct region *)got))
        return (struct region *)got;
    syscall(SYS_munmap, got, sizeof(struct region));
    return none;
}

static inline struct region *region_of(uint64_t address)
{
    return atomic_load_explicit(&regions[address >> REGION_BITS], memory_order_acquire);
}

static inline uint32_t page_in(uint64_t address)
{
    return (uint32_t)(address >> PAGE_BITS) & (PAGES - 1);
}

static inline void mark(_Atomic uint64_t *word, uint64_t bit)
{
    if (UNLIKELY(!(atomic_load_explicit(word, memory_order_relaxed) & bit)))
        atomic_fetch_or_explicit(word, bit, memory_order_relaxed);
}

bool mark_accessed(uint64_t address, uint64_t size)
{
    uint64_t end = address + size;
    if (UNLIKELY(end > REUSE_MASK || end <= address))
        return true;
    for (uint64_t at = address >> PAGE_BITS; at <= (end - 1) >> PAGE_BITS; at++) {
        struct region *region = region_of(at << PAGE_BITS);
        if (UNLIKELY(!region) && !(region = make_region(at << PAGE_BITS)))
            return false;
        mark(&region->accessed[at % PAGES / 64], UINT64_C(1) << at % 64);
    }
    return true;
}

bool mark_lock(uint64_t address)
{
    if (address > REUSE_MASK)
        return true;
    struct region *region = region_of(address);
    if (!region && !(region = make_region(address)))
        return false;
    mark(&region->lines[page_in(address)], UINT64_C(1) << address / MARK_LINE % 64);
    return true;
}

/* The lines of a page that lie between two places of it. */
static void look_at_lines(_Atomic uint64_t *lines, uint64_t begin, uint64_t end, void (*look)(uint64_t begin, uint64_t end))
{
    for (uint64_t line = begin & ~(uint64_t)(MARK_LINE - 1); line < end; line += MARK_LINE) {
        uint64_t bit = UINT64_C(1) << line / MARK_LINE % 64, next = line + MARK_LINE;
        if (!(atomic_load_explicit(lines, memory_order_relaxed) & bit))
            continue;
        look(line > begin ? line : begin, next < end ? next : end);
        if (line >= begin && next <= end)
            atomic_fetch_and_explicit(lines, ~bit, memory_order_relaxed);
    }
}

/* A page whose words couldn't be given a new use stays marked. */
static void visit_page(struct region *region, uint64_t begin, uint64_t end, bool (*reuse)(uint64_t, uint64_t), void (*look)(uint64_t, uint64_t))
{
    uint32_t at = page_in(begin);
    uint64_t bit = UINT64_C(1) << at % 64;
    if (look && atomic_load_explicit(&region->lines[at], memory_order_relaxed))
        look_at_lines(&region->lines[at], begin, end, look);
    if (!(atomic_load_explicit(&region->accessed[at / 64], memory_order_relaxed) & bit))
        return;
    if (end - begin == UINT64_C(1) << PAGE_BITS)
        atomic_fetch_and_explicit(&region->accessed[at / 64], ~bit, memory_order_relaxed);
    if (!reuse(begin, end))
        mark(&region->accessed[at / 64], bit);
}

void marks_visit(uint64_t address, uint64_t size, bool (*reuse)(uint64_t, uint64_t), void (*look)(uint64_t, uint64_t))
{
    uint64_t end = address + size;
    for (uint64_t at = address; at < end && end <= REUSE_MASK;) {
        struct region *region = region_of(at);
        uint64_t unit = UINT64_C(1) << (region ? PAGE_BITS : REGION_BITS), next = (at & ~(unit - 1)) + unit;
        next = next < end ? next : end;
        if (region)
            visit_page(region, at, next, reuse, look);
        at = next;
    }
}

/* In a child that was forked: what other threads of its parent did is over. */
void marks_forget(void)
{
    for (unsigned at = 0; at < REGIONS; at++) {
        struct region *region = atomic_load_explicit(&regions[at], memory_order_relaxed);
        if (region)
            syscall(SYS_munmap, region, sizeof *region);
        if (region)
            atomic_store_explicit(&regions[at], NULL, memory_order_relaxed);
    }
}

#endif
