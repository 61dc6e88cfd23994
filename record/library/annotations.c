/* What a program says of itself: by record/eraser.h, by the annotations that ThreadSanitizer's library takes, and by those of Valgrind's
 * family. What they say of order between threads is recorded only by `record/run --order`. */
#include "emit.h"

/* ---- record/eraser.h ---- */

HOOK void eraser_reuse(const volatile void *address, size_t size) { emit_hand_over(address, size); }
HOOK void eraser_ignore_on(void) { emit(EVENT_IGNORE_ON, 0, 0, 0); }
HOOK void eraser_ignore_off(void) { emit(EVENT_IGNORE_OFF, 0, 0, 0); }
HOOK void eraser_read_lock(const volatile void *lock) { emit(EVENT_READ_LOCK, LOCK_USER, (uintptr_t)lock, CALLER); }
HOOK void eraser_write_lock(const volatile void *lock) { emit(EVENT_LOCK, LOCK_USER, (uintptr_t)lock, CALLER); }
HOOK void eraser_unlock(const volatile void *lock) { emit(EVENT_UNLOCK, LOCK_USER, (uintptr_t)lock, CALLER); }

/* ---- ThreadSanitizer's interface for locks of the program's own ---- */

#define TSAN_READ_LOCK (1u << 3)
#define TSAN_TRY_LOCK (1u << 4)
#define TSAN_TRY_LOCK_FAILED (1u << 5)

HOOK void __tsan_mutex_create(void *lock, unsigned how) { (void)how; emit(EVENT_LOCK_BEGIN, 0, (uintptr_t)lock, CALLER); }
HOOK void __tsan_mutex_destroy(void *lock, unsigned how) { (void)how; emit(EVENT_LOCK_END, 0, (uintptr_t)lock, 0); }
HOOK void __tsan_mutex_pre_lock(void *lock, unsigned how) { (void)lock; (void)how; }

HOOK void __tsan_mutex_post_lock(void *lock, unsigned how, int depth)
{
    (void)depth;
    enum event_kind acquire = how & TSAN_READ_LOCK ? EVENT_READ_LOCK : EVENT_LOCK;
    if (how & (TSAN_TRY_LOCK | TSAN_TRY_LOCK_FAILED))
        emit_try(acquire, LOCK_USER, lock, !(how & TSAN_TRY_LOCK_FAILED), CALLER);
    else
        emit(acquire, LOCK_USER, (uintptr_t)lock, CALLER);
}

HOOK int __tsan_mutex_pre_unlock(void *lock, unsigned how)
{
    (void)how;
    emit(EVENT_UNLOCK, LOCK_USER, (uintptr_t)lock, CALLER);
    return 0;
}

HOOK void __tsan_mutex_post_unlock(void *lock, unsigned how) { (void)lock; (void)how; }
HOOK void __tsan_mutex_pre_signal(void *lock, unsigned how) { (void)lock; (void)how; }
HOOK void __tsan_mutex_post_signal(void *lock, unsigned how) { (void)lock; (void)how; }
HOOK void __tsan_mutex_pre_divert(void *lock, unsigned how) { (void)lock; (void)how; }
HOOK void __tsan_mutex_post_divert(void *lock, unsigned how) { (void)lock; (void)how; }
HOOK void __tsan_ignore_thread_begin(void) { emit(EVENT_IGNORE_ON, 0, 0, 0); }
HOOK void __tsan_ignore_thread_end(void) { emit(EVENT_IGNORE_OFF, 0, 0, 0); }

HOOK void __tsan_release(void *object) { emit_signal(OBJECT_USER, object, CALLER); }
HOOK void __tsan_acquire(void *object) { emit_await(OBJECT_USER, object, CALLER); }

/* ---- Annotations of Valgrind's family ---- */

#define CREATE(name)                             \
    HOOK void name(const char *file, int line, const volatile void *lock) \
    {                                            \
        (void)file;                              \
        (void)line;                              \
        emit(EVENT_LOCK_BEGIN, 0, (uintptr_t)lock, CALLER); \
    }

CREATE(AnnotateRWLockCreate)
CREATE(AnnotateRWLockCreateStatic)

HOOK void AnnotateRWLockDestroy(const char *file, int line, const volatile void *lock)
{
    (void)file;
    (void)line;
    emit(EVENT_LOCK_END, 0, (uintptr_t)lock, 0);
}

HOOK void AnnotateRWLockAcquired(const char *file, int line, const volatile void *lock, long is_write)
{
    (void)file;
    (void)line;
    emit(is_write ? EVENT_LOCK : EVENT_READ_LOCK, LOCK_USER, (uintptr_t)lock, CALLER);
}

HOOK void AnnotateRWLockReleased(const char *file, int line, const volatile void *lock, long is_write)
{
    (void)file;
    (void)line;
    (void)is_write;
    emit(EVENT_UNLOCK, LOCK_USER, (uintptr_t)lock, CALLER);
}

HOOK void AnnotateNewMemory(const char *file, int line, const volatile void *address, size_t size)
{
    (void)file;
    (void)line;
    emit_hand_over(address, size);
}

#define ORDER(name, emit_it)                     \
    HOOK void name(const char *file, int line, const volatile void *object) \
    {                                            \
        (void)file;                              \
        (void)line;                              \
        emit_it(OBJECT_USER, object, CALLER);    \
    }

ORDER(AnnotateHappensBefore, emit_signal)
ORDER(AnnotateHappensAfter, emit_await)
ORDER(WTFAnnotateHappensBefore, emit_signal)
ORDER(WTFAnnotateHappensAfter, emit_await)

#define IGNORE(name, change)                     \
    HOOK void Annotate##name(const char *file, int line) \
    {                                            \
        (void)file;                              \
        (void)line;                              \
        change;                                  \
    }

IGNORE(IgnoreReadsBegin, self.reads_ignored++)
IGNORE(IgnoreReadsEnd, self.reads_ignored -= self.reads_ignored > 0)
IGNORE(IgnoreWritesBegin, self.writes_ignored++)
IGNORE(IgnoreWritesEnd, self.writes_ignored -= self.writes_ignored > 0)
