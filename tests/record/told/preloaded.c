/* An allocator in C, for LD_PRELOAD. It takes each block from one array and uses none again, and has no pvalloc. To ask it about a block of another
 * allocator, or to give it one back, ends the program. */
#define _GNU_SOURCE
#include <errno.h>
#include <malloc.h>
#include <stdalign.h>
#include <stdatomic.h>
#include <stdint.h>
#include <stdlib.h>
#include <string.h>

static alignas(16) char memory[1 << 28];
static _Atomic size_t used;

/* The size of a block stands in front of it. */
static size_t *size_of(void *block)
{
    return (size_t *)block - 1;
}

static void *get(size_t alignment, size_t size)
{
    size_t all = size + alignment + 16, begin = atomic_fetch_add(&used, all);
    if (size > sizeof memory / 2 || begin > sizeof memory - all)
        return NULL;
    uintptr_t place = (uintptr_t)memory + begin + 16 + alignment - 1;
    void *block = (void *)(place - place % alignment);
    *size_of(block) = size;
    return block;
}

void *malloc(size_t size) { return get(16, size); }
void *calloc(size_t count, size_t size) { return get(16, count * size); }
void *aligned_alloc(size_t alignment, size_t size) { return get(alignment < 16 ? 16 : alignment, size); }
void *memalign(size_t alignment, size_t size) { return aligned_alloc(alignment, size); }
size_t malloc_usable_size(void *block)
{
    if (block && ((char *)block < memory || (char *)block >= memory + sizeof memory))
        abort();
    return block ? *size_of(block) : 0;
}

int posix_memalign(void **block, size_t alignment, size_t size)
{
    *block = aligned_alloc(alignment, size);
    return *block ? 0 : ENOMEM;
}

void free(void *block) { malloc_usable_size(block); }

void *realloc(void *block, size_t size)
{
    size_t had = malloc_usable_size(block);
    void *now = get(16, size);
    if (block && now)
        memcpy(now, block, had < size ? had : size);
    return now;
}
