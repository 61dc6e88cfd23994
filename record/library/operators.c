/* The operators `new` and `delete` of C++. ThreadSanitizer's library has them, and so a program that has the C++ library in its own file, and was
 * linked for ThreadSanitizer, has none itself. A `delete` is the call that gives memory back, and not the one of `free` in the C++ library. */
#include "memory.h"

#include <unistd.h>

/* ---- Operators that are the program's own ---- */

/* By the C++ standard each operator ends in one of four. If the program has that itself, it alone knows its memory. */
struct base {
    const char *name;
    atomic_bool is_known, is_ours;
};
static struct base new_base = {.name = "_Znwm"}, aligned_new_base = {.name = "_ZnwmSt11align_val_t"};
static struct base delete_base = {.name = "_ZdlPv"}, aligned_delete_base = {.name = "_ZdlPvSt11align_val_t"};

/* False also if it isn't known yet. */
static inline bool is_known_as_ours(struct base *base)
{
    return LIKELY(atomic_load_explicit(&base->is_ours, memory_order_relaxed));
}

static bool is_ours(struct base *base)
{
    if (!atomic_load(&base->is_known)) {
        atomic_store(&base->is_ours, is_here(find_first(base->name)));
        atomic_store(&base->is_known, true);
    }
    return atomic_load(&base->is_ours);
}

/* ---- new ---- */

static void *allocate(size_t size, size_t alignment)
{
    void *block;
    if (!alignment)
        return malloc(size ? size : 1);
    return posix_memalign(&block, alignment < sizeof block ? sizeof block : alignment, size) == 0 ? block : NULL;
}

/* Where the C++ library is in no file of its own, nothing can be thrown from here. ThreadSanitizer's library ends the program then, too. */
static void *need(void *block)
{
    static const char text[] = "record: operator new: out of memory\n";
    if (block)
        return block;
    if (write(STDERR_FILENO, text, sizeof text - 1) < 0)
        _exit(1);
    abort();
}

/* The operator behind this library, if there is one: the C++ library's, which calls `malloc`, or an allocator's own. */
#define NEW_BEHIND(base, name, parameters, arguments, otherwise) \
    void *name parameters;                                   \
    static __attribute__((noinline)) void *name##_behind parameters \
    {                                                        \
        __typeof__(&name) next = NEXT(name);                 \
        is_ours(&base);                                      \
        if (!next)                                           \
            return otherwise;                                \
        void *block = next arguments;                        \
        return (KEEPS_BLOCKS || allocator.is_foreign) && is_of_allocator(next) ? note_taken(block, size, CALLER) : block; \
    }

/* Nearly always it is `malloc`, and succeeds. What is behind may be a call of `malloc` that is noted there. */
#define NEW(name, parameters, arguments, otherwise)          \
    NEW_BEHIND(new_base, name, parameters, arguments, otherwise) \
    HOOK void *name parameters                               \
    {                                                        \
        void *block = is_known_as_ours(&new_base) && LIKELY(allocator.is_plain) ? allocator.malloc(size + !size) : NULL; \
        if (UNLIKELY(block == NULL))                         \
            return name##_behind arguments;                  \
        return KEEPS_BLOCKS ? note_taken(block, size, CALLER) : block; \
    }

#define NEW_ALIGNED(name, parameters, arguments, otherwise)  \
    NEW_BEHIND(aligned_new_base, name, parameters, arguments, otherwise) \
    HOOK void *name parameters { return name##_behind arguments; }

NEW(_Znwm, (size_t size), (size), need(allocate(size, 0)))
NEW(_Znam, (size_t size), (size), _Znwm(size))
NEW(_ZnwmRKSt9nothrow_t, (size_t size, const void *how), (size, how), is_ours(&new_base) ? allocate(size, 0) : _Znwm(size))
NEW(_ZnamRKSt9nothrow_t, (size_t size, const void *how), (size, how), _ZnwmRKSt9nothrow_t(size, how))

NEW_ALIGNED(_ZnwmSt11align_val_t, (size_t size, size_t alignment), (size, alignment), need(allocate(size, alignment)))
NEW_ALIGNED(_ZnamSt11align_val_t, (size_t size, size_t alignment), (size, alignment), _ZnwmSt11align_val_t(size, alignment))
NEW_ALIGNED(_ZnwmSt11align_val_tRKSt9nothrow_t, (size_t size, size_t alignment, const void *how), (size, alignment, how),
            is_ours(&aligned_new_base) ? allocate(size, alignment) : _ZnwmSt11align_val_t(size, alignment))
NEW_ALIGNED(_ZnamSt11align_val_tRKSt9nothrow_t, (size_t size, size_t alignment, const void *how), (size, alignment, how),
            _ZnwmSt11align_val_tRKSt9nothrow_t(size, alignment, how))

/* ---- delete ---- */

/* OTHERWISE is for a program that has the operator which this one ends in, and no C++ library behind this library. */
#define DELETE(base, name, parameters, arguments, otherwise) \
    void name parameters;                                    \
    static __attribute__((noinline)) void name##_behind parameters \
    {                                                        \
        __typeof__(&name) next = NEXT(name);                 \
        if (next)                                            \
            next arguments;                                  \
        else                                                 \
            otherwise;                                       \
    }                                                        \
    HOOK void name parameters                                \
    {                                                        \
        if (is_known_as_ours(&base) || is_ours(&base))       \
            give_back(block, CALLER);                        \
        else                                                 \
            name##_behind arguments;                         \
    }

#define PLAIN(name, parameters, arguments) DELETE(delete_base, name, parameters, arguments, _ZdlPv(block))
#define ALIGNED(name, parameters, arguments) DELETE(aligned_delete_base, name, parameters, arguments, _ZdlPvSt11align_val_t(block, alignment))

DELETE(delete_base, _ZdlPv, (void *block), (block), give_back(block, CALLER))
PLAIN(_ZdaPv, (void *block), (block))
PLAIN(_ZdlPvm, (void *block, size_t size), (block, size))
PLAIN(_ZdaPvm, (void *block, size_t size), (block, size))
PLAIN(_ZdlPvRKSt9nothrow_t, (void *block, const void *how), (block, how))
PLAIN(_ZdaPvRKSt9nothrow_t, (void *block, const void *how), (block, how))

DELETE(aligned_delete_base, _ZdlPvSt11align_val_t, (void *block, size_t alignment), (block, alignment), give_back(block, CALLER))
ALIGNED(_ZdaPvSt11align_val_t, (void *block, size_t alignment), (block, alignment))
ALIGNED(_ZdlPvmSt11align_val_t, (void *block, size_t size, size_t alignment), (block, size, alignment))
ALIGNED(_ZdaPvmSt11align_val_t, (void *block, size_t size, size_t alignment), (block, size, alignment))
ALIGNED(_ZdlPvSt11align_val_tRKSt9nothrow_t, (void *block, size_t alignment, const void *how), (block, alignment, how))
ALIGNED(_ZdaPvSt11align_val_tRKSt9nothrow_t, (void *block, size_t alignment, const void *how), (block, alignment, how))
