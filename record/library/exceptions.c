/* Exceptions. By std::exception_ptr several threads may hold one, and whoever lets it go last destroys it. The count of its holders is in the
 * C++ library, which is not instrumented: so each holder signals the exception before it lets it go, and the last one awaits all of them before it
 * destroys it. These are the names of GNU's library. One that is caught where no std::exception_ptr holds it has no line. */
#include "emit.h"

#include <stdalign.h>
#include <stdatomic.h>

/* A std::exception_ptr, and more room, so that the function which returns one finds its place as in C++. */
struct holder { void *exception; void *room[2]; };

/* What GNU's library has in front of an exception. */
struct thrown {
    alignas(16) atomic_int holders;
    alignas(16) const void *type;
    void (*destroy)(void *exception); /* NULL if that does nothing */
    void *rest[12];
};
_Static_assert(sizeof(struct thrown) == 128, "an exception is 128 bytes behind the count of its holders");

struct holder _ZSt17current_exceptionv(void);
void _ZNSt15__exception_ptr13exception_ptr9_M_addrefEv(struct holder *holder);
void _ZNSt15__exception_ptr13exception_ptr10_M_releaseEv(struct holder *holder);
void __cxa_end_catch(void);
void __cxa_free_exception(void *exception);

/* This library gets hold of an exception itself. */
static __thread bool is_looking __attribute__((tls_model("initial-exec")));

/* Lets an exception go, by a count of this library's own: the C++ library's function would destroy it with no room for an await. Another holder may have
 * signalled it since this one did, and yet have counted itself out before. True if this was the last holder, who is to free it now. */
static inline __attribute__((always_inline)) bool let_go(void *exception, uint64_t site)
{
    struct thrown *thrown = (struct thrown *)exception - 1;
    emit(EVENT_LET_GO, OBJECT_EXCEPTION, (uintptr_t)exception, site);
    if (atomic_fetch_sub_explicit(&thrown->holders, 1, memory_order_acq_rel) != 1)
        return false;
    emit_await(OBJECT_EXCEPTION, exception, site);
    if (thrown->destroy)
        thrown->destroy(exception);
    return true;
}

HOOK void _ZNSt15__exception_ptr13exception_ptr9_M_addrefEv(struct holder *holder)
{
    if (UNLIKELY(is_ordering()) && !is_looking)
        emit_signal(OBJECT_EXCEPTION, holder->exception, CALLER);
    REAL(_ZNSt15__exception_ptr13exception_ptr9_M_addrefEv)(holder);
}

HOOK void _ZNSt15__exception_ptr13exception_ptr10_M_releaseEv(struct holder *holder)
{
    void *exception = holder->exception;
    if (LIKELY(!is_ordering()) || !exception) {
        REAL(_ZNSt15__exception_ptr13exception_ptr10_M_releaseEv)(holder);
    } else if (let_go(exception, CALLER)) {
        holder->exception = NULL;
        REAL(__cxa_free_exception)(exception);
    }
}

/* Whether the C++ library behind this one is GNU's. Another has other things in front of an exception. */
static bool is_gnu(void)
{
    static atomic_int known;
    enum { UNKNOWN, GNU, OTHER } kind = atomic_load_explicit(&known, memory_order_relaxed);
    if (UNLIKELY(kind == UNKNOWN)) {
        const void *release = find_behind("_ZNSt15__exception_ptr13exception_ptr10_M_releaseEv");
        kind = release && is_in_one_file(release, find_behind("_ZSt17current_exceptionv")) ? GNU : OTHER;
        atomic_store_explicit(&known, kind, memory_order_relaxed);
    }
    return kind == GNU;
}

/* The exception that this thread handles, or NULL. From here on this library holds it, too. */
static void *hold_handled(void)
{
    bool was_looking = is_looking;
    is_looking = true;
    struct holder holder = REAL(_ZSt17current_exceptionv)();
    is_looking = was_looking;
    return holder.exception;
}

HOOK void __cxa_end_catch(void)
{
    void *exception = UNLIKELY(is_ordering()) && is_gnu() ? hold_handled() : NULL;
    REAL(__cxa_end_catch)();
    if (UNLIKELY(exception != NULL) && let_go(exception, CALLER))
        REAL(__cxa_free_exception)(exception);
}

HOOK void __cxa_free_exception(void *exception)
{
    emit_await(OBJECT_EXCEPTION, exception, CALLER);
    REAL(__cxa_free_exception)(exception);
}
