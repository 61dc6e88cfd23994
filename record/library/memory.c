/* Memory that is given back. It is recorded as put to a new use before anybody else can get it. */
#include "memory.h"

#include <errno.h>
#include <stdarg.h>
#include <string.h>
#include <sys/mman.h>
#include <sys/syscall.h>
#include <unistd.h>

/* ---- The allocator ---- */

extern void __libc_free(void *);
extern void *__libc_malloc(size_t);
extern void *__libc_calloc(size_t, size_t);

static const struct allocator of_c_library = {.malloc = __libc_malloc, .calloc = __libc_calloc, .free = __libc_free, .is_first = true};
struct allocator allocator;
static atomic_bool is_allocator_known;

static void look_for_allocator(struct allocator *found)
{
    const void *used = find_first("free");
    found->malloc = REAL(malloc);
    found->calloc = REAL(calloc);
    found->free = REAL(free);
    found->is_first = is_here(used);
    /* No allocator has this name of the C library, but tcmalloc has `__libc_free`. */
    found->is_foreign = !is_in_one_file(found->free, find_behind("gnu_get_libc_version"));
    found->is_plain = found->is_first && !found->is_foreign && is_here(find_first("malloc"));
    found->size_of = is_in_one_file(REAL(malloc_usable_size), found->free) ? REAL(malloc_usable_size) : NULL;
    found->size_in_front = is_in_one_file(malloc_usable_size, used) ? malloc_usable_size : NULL;
}

/* Looking for it may take memory and free it: then the C library's own serves. */
static __attribute__((noinline)) const struct allocator *find_allocator(void)
{
    static __thread bool is_looking __attribute__((tls_model("initial-exec")));
    if (is_looking)
        return &of_c_library;
    is_looking = true;
    look_for_allocator(&allocator);
    atomic_store_explicit(&is_allocator_known, true, memory_order_release);
    is_looking = false;
    return &allocator;
}

static inline const struct allocator *get_allocator(void)
{
    return LIKELY(atomic_load_explicit(&is_allocator_known, memory_order_acquire)) ? &allocator : find_allocator();
}

/* What is freed there may be what the dynamic loader kept of a name that it didn't find, and it would be freed twice. So this comes before any such
 * name. */
static __attribute__((constructor)) void look_early(void) { get_allocator(); }

bool is_of_allocator(const void *function)
{
    return is_in_one_file(function, get_allocator()->malloc);
}

bool is_free_seen(void)
{
    const struct allocator *its = get_allocator();
    return its->is_first && its->size_of;
}

/* ---- This library's own memory ---- */

void *take_own(size_t size) { return get_allocator()->malloc(size); }
void give_own(void *block) { get_allocator()->free(block); }

/* ---- Memory that is given out ---- */

/* An allocator may take memory of its own when it is asked for a size for the first time: tcmalloc does. */
static __attribute__((noinline)) void note_foreign(void *block)
{
    static __thread bool is_asking __attribute__((tls_model("initial-exec")));
    if (!block || !allocator.size_of || !is_recording() || is_asking)
        return;
    is_asking = true;
    size_t size = allocator.size_of(block);
    is_asking = false;
    emit_hand_over(block, size);
}

/* If no free is seen, the memory of a block may be part of another one later, and nobody would know of that. */
static inline void note_block(const void *block, size_t size, uint64_t place)
{
    if (KEEPS_BLOCKS && is_free_seen())
        emit_taken(block, size, place);
}

inline void *note_taken(void *block, size_t size, uint64_t place)
{
    if (UNLIKELY(allocator.is_foreign))
        note_foreign(block);
    note_block(block, size, place);
    return block;
}

/* Nearly always the C library's. */
HOOK void *malloc(size_t size) { return LIKELY(NOTES_NONE) ? allocator.malloc(size) : note_taken(get_allocator()->malloc(size), size, CALLER); }
HOOK void *aligned_alloc(size_t alignment, size_t size) { return note_taken(REAL(aligned_alloc)(alignment, size), size, CALLER); }
HOOK void *memalign(size_t alignment, size_t size) { return note_taken(REAL(memalign)(alignment, size), size, CALLER); }
HOOK void *valloc(size_t size) { return note_taken(REAL(valloc)(size), size, CALLER); }

/* An allocator may have no such function. Then this is the C library's, and the allocator doesn't know the block. */
HOOK void *pvalloc(size_t size)
{
    void *block = REAL(pvalloc)(size);
    return is_of_allocator(REAL(pvalloc)) ? note_taken(block, size, CALLER) : block;
}

HOOK void *calloc(size_t count, size_t size)
{
    return LIKELY(NOTES_NONE) ? allocator.calloc(count, size) : note_taken(get_allocator()->calloc(count, size), count * size, CALLER);
}

HOOK int posix_memalign(void **block, size_t alignment, size_t size)
{
    int result = REAL(posix_memalign)(block, alignment, size);
    if (result == 0)
        note_taken(*block, size, CALLER);
    return result;
}

/* ---- Blocks that are given back ---- */

static inline void note_free(void *block, size_function size_of, uint64_t site)
{
    if (block && size_of && is_recording())
        emit_free(block, size_of(block), site);
}

static inline void free_behind(void *block, uint64_t site)
{
    const struct allocator *its = get_allocator();
    note_free(block, its->size_of, site);
    its->free(block);
}

HOOK void free(void *block) { free_behind(block, CALLER); }

/* The program's own `free` may call this library's. */
void give_back(void *block, uint64_t site)
{
    if (LIKELY(get_allocator()->is_first)) {
        free_behind(block, site);
        return;
    }
    note_free(block, allocator.size_in_front, site);
    free(block);
}

/* A block that shrinks, or grows into what its allocator gave it beyond its size, stays where it is, as a rule, and gives back its end. If it moves,
 * others may have its old place before that is known. So the place of that event is drawn first. Nobody knows what its size was, so one that stays is
 * given out anew. */
static void *shrink(void *block, size_t had, size_t size, uint64_t place)
{
    void *(*real)(void *, size_t) = REAL(realloc);
    size_t kept = (size + 15) & ~(size_t)15, moves = had < kept ? had : kept;
    struct draft draft;
    if (IS_ONLINE)
        emit(EVENT_TAKEN_ANEW, (uint32_t)had, packed(block, had), place);
    if (had > kept)
        emit_memory((char *)block + kept, had - kept, place);
    bool is_drawn = emit_draw(&draft);
    if (is_drawn)
        emit_forget(&draft, block, moves);
    void *now = real(block, size);
    if (is_drawn)
        emit_publish(&draft, now && now != block ? EVENT_REUSE : EVENT_VOID, (uint32_t)moves, packed(block, moves), place);
    if (now != block)
        return note_taken(now, size, place);
    note_block(now, size, place);
    return now;
}

/* The real function would give the old block back before this library could say so. So a block that grows is moved here. */
static void *resize(void *block, size_t size, uint64_t site)
{
    size_function size_of = get_allocator()->size_of;
    if (!block)
        return note_taken(REAL(realloc)(NULL, size), size, site);
    if (!is_recording() || !size_of)
        return REAL(realloc)(block, size);
    size_t had = size_of(block);
    if (size == 0) {
        emit_free(block, had, site);
        return REAL(realloc)(block, 0);
    }
    if (size <= had)
        return shrink(block, had, size, site);
    void *now = note_taken(get_allocator()->malloc(size), size, site);
    if (now) {
        memcpy(now, block, had);
        free_behind(block, site);
    }
    return now;
}

HOOK void *realloc(void *block, size_t size) { return resize(block, size, CALLER); }

HOOK void *reallocarray(void *block, size_t count, size_t size)
{
    size_t bytes;
    if (__builtin_mul_overflow(count, size, &bytes)) {
        errno = ENOMEM;
        return NULL;
    }
    return resize(block, bytes, CALLER);
}

/* ---- Pages ---- */

#if KEEPS_BLOCKS && !IS_ONLINE
/* Only that of the program's own calls: what an allocator gets here it gives out in blocks. Memory that a mapping takes the place of is the program's
 * already. */
HOOK void *mmap(void *wanted, size_t size, int protection, int how, int file, off_t begin)
{
    void *now = (void *)syscall(SYS_mmap, wanted, size, protection, how, file, begin);
    if (now != MAP_FAILED && !(how & MAP_FIXED) && is_instrumented(CALLER))
        emit_taken(now, (size + 4095) & ~(size_t)4095, CALLER);
    return now;
}

HOOK void *mmap64(void *wanted, size_t size, int protection, int how, int file, off_t begin) __attribute__((alias("mmap")));
#endif

HOOK int munmap(void *begin, size_t size)
{
    if (is_recording())
        emit_memory(begin, (size + 4095) & ~(size_t)4095, CALLER);
    return REAL(munmap)(begin, size);
}

HOOK void *mremap(void *begin, size_t had, size_t size, int how, ...)
{
    va_list rest;
    va_start(rest, how);
    void *wanted = how & MREMAP_FIXED ? va_arg(rest, void *) : NULL;
    va_end(rest);
    void *(*real)(void *, size_t, size_t, int, ...) = REAL(mremap);
    struct draft draft;
    if (is_recording() && size < had)
        emit_memory((char *)begin + size, had - size, CALLER);
    /* As in a block that shrinks: others may have the old place at once. */
    bool is_drawn = is_memory(begin, had) && emit_draw(&draft);
    if (is_drawn)
        emit_forget(&draft, begin, had);
    void *now = real(begin, had, size, how, wanted);
    if (is_drawn)
        emit_publish(&draft, now != MAP_FAILED && now != begin ? EVENT_REUSE : EVENT_VOID, (uint32_t)had, packed(begin, had), CALLER);
    return now;
}
