/* Atomic operations: always carried out in the strongest order. They don't race, and no access is recorded. If what orders threads is
 * recorded, one that releases by the program's own memory order signals its address, and one that acquires awaits it. The others are
 * recorded where they may mean something to a fence, or if data flow is recorded. */
#include "emit.h"

#define ORDER __ATOMIC_SEQ_CST

/* The low bits of a memory order. A compiler may set others, as hints for the processor. */
#define ORDER_BITS 15

static inline bool is_release(int order)
{
    order &= ORDER_BITS;
    return order == __ATOMIC_RELEASE || order == __ATOMIC_ACQ_REL || order == __ATOMIC_SEQ_CST;
}

static inline bool is_acquire(int order)
{
    order &= ORDER_BITS;
    return order == __ATOMIC_ACQUIRE || order == __ATOMIC_CONSUME || order == __ATOMIC_ACQ_REL || order == __ATOMIC_SEQ_CST;
}

static __attribute__((noinline)) void signal_address(const volatile void *at, uint64_t site)
{
    shake();
    emit_signal(OBJECT_ATOMIC, at, site);
}

static __attribute__((noinline)) void await_address(const volatile void *at, uint64_t site)
{
    emit_await(OBJECT_ATOMIC, at, site);
}

static __attribute__((noinline)) void note_store(const volatile void *at, uint64_t site)
{
    emit(EVENT_STORED, 0, (uintptr_t)at, site);
}

static __attribute__((noinline)) void note_load(const volatile void *at, uint64_t site)
{
    emit(EVENT_LOADED, uses_of_loads(), (uintptr_t)at, site);
}

/* Before an operation that stores. */
static inline void before_store(const volatile void *at, int order, uint64_t site)
{
    if (LIKELY(!attached->notes_atomics))
        return;
    if (is_release(order))
        signal_address(at, site);
    else if (self.notes_stores)
        note_store(at, site);
}

/* After an operation that loads. */
static inline void after_load(const volatile void *at, int order, uint64_t site)
{
    if (LIKELY(!is_ordering()))
        return;
    if (is_acquire(order))
        await_address(at, site);
    else if (uses_of_loads())
        note_load(at, site);
}

/* An operation that stores only if it succeeds has its place among the events before it is known whether it is one of them. */
static inline __attribute__((always_inline)) bool draw_store(struct draft *draft, int order)
{
    if (LIKELY(!attached->notes_atomics) || !(is_release(order) || self.notes_stores))
        return false;
    shake();
    return is_ordering() && emit_draw(draft);
}

static inline __attribute__((always_inline)) void publish_store(const struct draft *draft, bool is_done, const volatile void *at, int order, uint64_t site)
{
    enum event_kind kind = is_release(order) ? EVENT_SIGNAL : EVENT_STORED;
    emit_publish(draft, is_done ? kind : EVENT_VOID, OBJECT_ATOMIC, (uintptr_t)at, site);
}

#define LOAD_AND_STORE(type, bits)                                                                                           \
    HOOK type __tsan_atomic##bits##_load(const volatile type *at, int order)                                                 \
    {                                                                                                                        \
        type value = __atomic_load_n(at, ORDER);                                                                             \
        after_load(at, order, CALLER);                                                                                       \
        return value;                                                                                                        \
    }                                                                                                                        \
    HOOK void __tsan_atomic##bits##_store(volatile type *at, type value, int order)                                          \
    {                                                                                                                        \
        before_store(at, order, CALLER);                                                                                     \
        __atomic_store_n(at, value, ORDER);                                                                                  \
    }

#define CHANGE(type, bits, name, builtin)                                                                                    \
    HOOK type __tsan_atomic##bits##_##name(volatile type *at, type value, int order)                                         \
    {                                                                                                                        \
        before_store(at, order, CALLER);                                                                                     \
        type old = builtin(at, value, ORDER);                                                                                \
        after_load(at, order, CALLER);                                                                                       \
        return old;                                                                                                          \
    }

/* `is_done` is what the operation gives: a compare and exchange that fails is a load. */
#define COMPARE_BY(at, order, failed, is_done, operation)                                                                    \
    struct draft draft;                                                                                                      \
    bool is_drawn = draw_store(&draft, order);                                                                               \
    operation;                                                                                                               \
    if (is_drawn)                                                                                                            \
        publish_store(&draft, is_done, at, order, CALLER);                                                                   \
    after_load(at, is_done ? order : failed, CALLER);

#define COMPARE(type, bits, name)                                                                                            \
    HOOK int __tsan_atomic##bits##_compare_exchange_##name(volatile type *at, type *expected, type value, int order, int failed) \
    {                                                                                                                        \
        COMPARE_BY(at, order, failed, is_done, int is_done = __atomic_compare_exchange_n(at, expected, value, 0, ORDER, ORDER)) \
        return is_done;                                                                                                      \
    }

#define COMPARE_VALUE(type, bits)                                                                                            \
    HOOK type __tsan_atomic##bits##_compare_exchange_val(volatile type *at, type expected, type value, int order, int failed) \
    {                                                                                                                        \
        COMPARE_BY(at, order, failed, is_done, int is_done = __atomic_compare_exchange_n(at, &expected, value, 0, ORDER, ORDER)) \
        return expected;                                                                                                     \
    }

#define ATOMIC(type, bits)                                                                                                   \
    LOAD_AND_STORE(type, bits)                                                                                               \
    CHANGE(type, bits, exchange, __atomic_exchange_n)                                                                        \
    CHANGE(type, bits, fetch_add, __atomic_fetch_add)                                                                        \
    CHANGE(type, bits, fetch_sub, __atomic_fetch_sub)                                                                        \
    CHANGE(type, bits, fetch_and, __atomic_fetch_and)                                                                        \
    CHANGE(type, bits, fetch_or, __atomic_fetch_or)                                                                          \
    CHANGE(type, bits, fetch_xor, __atomic_fetch_xor)                                                                        \
    CHANGE(type, bits, fetch_nand, __atomic_fetch_nand)                                                                      \
    COMPARE(type, bits, strong)                                                                                              \
    COMPARE(type, bits, weak)                                                                                                \
    COMPARE_VALUE(type, bits)

ATOMIC(uint8_t, 8)
ATOMIC(uint16_t, 16)
ATOMIC(uint32_t, 32)
ATOMIC(uint64_t, 64)

#ifdef __SIZEOF_INT128__
/* Sixteen bytes: everything is made of one compare and exchange, since GCC would leave the others to another library (-mcx16). */
__extension__ typedef unsigned __int128 wide;

static wide swap_wide(volatile wide *at, wide expected, wide value)
{
    return __sync_val_compare_and_swap(at, expected, value);
}

#define CHANGE_WIDE(name, result)                                                                                            \
    HOOK wide __tsan_atomic128_##name(volatile wide *at, wide value, int order)                                              \
    {                                                                                                                        \
        wide old = 0, found;                                                                                                 \
        before_store(at, order, CALLER);                                                                                     \
        while ((found = swap_wide(at, old, result)) != old)                                                                  \
            old = found;                                                                                                     \
        after_load(at, order, CALLER);                                                                                       \
        return old;                                                                                                          \
    }

HOOK wide __tsan_atomic128_load(const volatile wide *at, int order)
{
    wide value = swap_wide((volatile wide *)(uintptr_t)at, 0, 0);
    after_load(at, order, CALLER);
    return value;
}

CHANGE_WIDE(exchange, value)
CHANGE_WIDE(fetch_add, old + value)
CHANGE_WIDE(fetch_sub, old - value)
CHANGE_WIDE(fetch_and, old & value)
CHANGE_WIDE(fetch_or, old | value)
CHANGE_WIDE(fetch_xor, old ^ value)
CHANGE_WIDE(fetch_nand, ~(old & value))

HOOK void __tsan_atomic128_store(volatile wide *at, wide value, int order)
{
    wide old = 0, found;
    before_store(at, order, CALLER);
    while ((found = swap_wide(at, old, value)) != old)
        old = found;
}

HOOK wide __tsan_atomic128_compare_exchange_val(volatile wide *at, wide expected, wide value, int order, int failed)
{
    COMPARE_BY(at, order, failed, (found == expected), wide found = swap_wide(at, expected, value))
    return found;
}

#define COMPARE_WIDE(name)                                                                                                   \
    HOOK int __tsan_atomic128_compare_exchange_##name(volatile wide *at, wide *expected, wide value, int order, int failed)  \
    {                                                                                                                        \
        wide wanted = *expected;                                                                                             \
        COMPARE_BY(at, order, failed, (found == wanted), wide found = swap_wide(at, wanted, value))                          \
        *expected = found;                                                                                                   \
        return found == wanted;                                                                                              \
    }

COMPARE_WIDE(strong)
COMPARE_WIDE(weak)
#endif

/* What a fence acquires was loaded before it, and what it releases is stored behind it. So its event may be on either side of it. */
HOOK void __tsan_atomic_thread_fence(int order)
{
    uint32_t does = (is_acquire(order) ? FENCE_ACQUIRES : 0) | (is_release(order) ? FENCE_RELEASES : 0);
    if (UNLIKELY(is_ordering()) && does) {
        self.notes_stores |= does & FENCE_RELEASES;
        emit(EVENT_FENCE, does, 0, CALLER);
    }
    __atomic_thread_fence(ORDER);
}

HOOK void __tsan_atomic_signal_fence(int order)
{
    (void)order;
    __atomic_signal_fence(ORDER);
}
