/* The memory that the proved calls ask for, over malloc. Their names and arguments are those that the compiler of the proved archive calls.
 *
 * A size is never above 2^63, an alignment divides 16. */
#ifndef _GNU_SOURCE
#define _GNU_SOURCE
#endif
#include <errno.h>
#include <stdbool.h>
#include <stddef.h>
#include <stdlib.h>

#ifdef ERASER_OWN_PAGES
#include <sched.h>
#include <stdatomic.h>
#include <stdint.h>
#include <string.h>
#include <sys/mman.h>
#include <sys/syscall.h>
#include <unistd.h>

/* ---- Pages of its own ----
 *
 * No call of the C library that a program may have put its own in place of: mappings are made by the system's calls. A block has its class in front of it.
 * There are four classes for each doubling. A block that is given back waits in the list of its class. One of LARGE bytes or more has a mapping of its own. */

enum { HEAD = 16, LARGE = 131072, CHUNK = 1048576, CLASSES = 64, OWN_MAPPING = CLASSES, IN_ANOTHER };

struct block {
    uint64_t size; /* of a mapping of its own */
    uint64_t class;
    struct block *next; /* in its list: where the bytes of the block begin */
};
_Static_assert(offsetof(struct block, next) == HEAD, "a block's bytes begin behind its class");

static struct block *spare[CLASSES];
static char *chunk, *chunk_end;
static uint64_t pages;
static _Atomic uint64_t *told;

/* Taken under any lock of eraser_pthread.c, and none is taken under it. */
static atomic_bool is_taken;

static void take_pages(void)
{
    while (atomic_exchange_explicit(&is_taken, true, memory_order_acquire))
        sched_yield();
}

static void leave_pages(void)
{
    atomic_store_explicit(&is_taken, false, memory_order_release);
}

void eraser_count_pages(_Atomic uint64_t *bytes)
{
    told = bytes;
    atomic_store(told, pages);
}

/* Another thread may have been at work on these. */
void eraser_forget_pages(void)
{
    memset(spare, 0, sizeof spare);
    chunk = chunk_end = NULL;
    pages = 0;
    told = NULL;
    leave_pages();
}

static void count(uint64_t bytes)
{
    pages += bytes;
    if (told)
        atomic_store(told, pages);
}

static void *map(size_t bytes)
{
    long at = syscall(SYS_mmap, NULL, bytes, PROT_READ | PROT_WRITE, MAP_PRIVATE | MAP_ANONYMOUS, -1, 0);
    if (at == -1)
        return NULL;
    count(bytes);
    return (void *)at;
}

/* How many bytes a block of a class has, with its head. */
static size_t size_of(unsigned class)
{
    size_t size = 32;
    for (unsigned before = 0; before < class; before++)
        size += (size_t)16 << (before < 4 ? 0 : before / 4 - 1);
    return size;
}

static struct block *take_small(size_t bytes)
{
    unsigned class = 0;
    while (size_of(class) < bytes)
        class++;
    size_t size = size_of(class);
    struct block *block = spare[class];
    if (block) {
        spare[class] = block->next;
        return block;
    }
    if ((size_t)(chunk_end - chunk) < size) {
        char *got = map(CHUNK);
        if (!got)
            return NULL;
        chunk = got;
        chunk_end = got + CHUNK;
    }
    block = (struct block *)chunk;
    chunk += size;
    block->class = class;
    return block;
}

static size_t whole_pages(size_t bytes)
{
    return (bytes + HEAD + 4095) & ~(size_t)4095;
}

static struct block *take_large(size_t bytes)
{
    struct block *block = map(bytes);
    if (block) {
        block->class = OWN_MAPPING;
        block->size = bytes;
    }
    return block;
}

void *eraser_take(size_t size)
{
    int error = errno;
    if (size > SIZE_MAX / 4)
        return NULL;
    take_pages();
    struct block *block = size + HEAD < LARGE ? take_small(size + HEAD) : take_large(whole_pages(size));
    leave_pages();
    errno = error;
    return block ? (char *)block + HEAD : NULL;
}

/* Only the detector itself asks for it, and keeps it: what is given back stays. */
void *eraser_take_aligned(size_t alignment, size_t size)
{
    char *block = eraser_take(size + alignment + HEAD);
    if (!block)
        return NULL;
    block += HEAD;
    block += (alignment - (uintptr_t)block % alignment) % alignment;
    ((struct block *)(block - HEAD))->class = IN_ANOTHER;
    return block;
}

void eraser_give(void *given)
{
    int error = errno;
    struct block *block = given ? (struct block *)((char *)given - HEAD) : NULL;
    if (!block || block->class == IN_ANOTHER)
        return;
    take_pages();
    if (block->class == OWN_MAPPING) {
        count(-block->size);
        syscall(SYS_munmap, block, block->size);
    } else {
        block->next = spare[block->class];
        spare[block->class] = block;
    }
    leave_pages();
    errno = error;
}

static size_t room_of(const struct block *block)
{
    return (block->class == OWN_MAPPING ? block->size : size_of((unsigned)block->class)) - HEAD;
}

void *eraser_resize(void *given, size_t size)
{
    struct block *block = given ? (struct block *)((char *)given - HEAD) : NULL;
    size_t room = block ? room_of(block) : 0;
    if (block && size <= room && size > room / 4)
        return given;
    void *now = eraser_take(size);
    if (now && block) {
        memcpy(now, given, size < room ? size : room);
        eraser_give(given);
    }
    return now;
}

#endif

_Static_assert(_Alignof(max_align_t) % 16 == 0, "malloc aligns to 16 bytes");

/* Whether there is memory, and where. It is never null: where there is none, it points to `nothing`, which nobody reads. errno is the program's. */
struct tried {
    bool is_there;
    void *at;
};

static char nothing;

static struct tried tried(void *at, int error)
{
    errno = error;
    return at ? (struct tried){true, at} : (struct tried){false, &nothing};
}

/* malloc may answer null for a size of 0, which is no lack of memory. */
static size_t at_least_one(size_t size)
{
    return size ? size : 1;
}

struct tried rattle_alloc(size_t size, size_t alignment);
struct tried rattle_alloc(size_t size, size_t alignment)
{
    (void)alignment;
    int error = errno;
    return tried(malloc(at_least_one(size)), error);
}

/* Where there is no memory, the old block is as it was. */
struct tried rattle_realloc(void *old, size_t kept, size_t size, size_t alignment);
struct tried rattle_realloc(void *old, size_t kept, size_t size, size_t alignment)
{
    (void)kept;
    (void)alignment;
    int error = errno;
    return tried(realloc(old, at_least_one(size)), error);
}

void rattle_dealloc(void *block);
void rattle_dealloc(void *block)
{
    free(block);
}
