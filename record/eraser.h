/* What a C or C++ program can tell the recorder of Eraser about its own memory and locks.
 *
 *   ERASER_REUSE(address, size)  these bytes are put to a new use: an allocator of the program's own gives them to somebody else, or one
 *                                thread hands them over to another one. What is known of their words is forgotten.
 *   ERASER_IGNORE_ON()           from here on this thread's reads and writes are not checked, until
 *   ERASER_IGNORE_OFF()          the matching end. The two nest.
 *   ERASER_READ_LOCK(lock)       this thread has acquired a lock of the program's own to read: call it after the acquire
 *   ERASER_READ_UNLOCK(lock)     it is about to release it: call it before the release
 *   ERASER_WRITE_LOCK(lock)      the same to write
 *   ERASER_WRITE_UNLOCK(lock)
 *
 * A lock is any address that stands for it. Without -fsanitize=thread they are nothing at all, and in a program that is not recorded
 * they do nothing. They need the C library's dlsym (before glibc 2.34: -ldl). */
#ifndef ERASER_H
#define ERASER_H

#if defined(__SANITIZE_THREAD__)
#define ERASER_ANNOTATES 1
#elif defined(__has_feature)
#if __has_feature(thread_sanitizer)
#define ERASER_ANNOTATES 1
#endif
#endif

#ifdef ERASER_ANNOTATES

#include <dlfcn.h>
#include <stddef.h>

#define ERASER_UNWATCHED static inline __attribute__((no_sanitize_thread, unused))

/* Looked up at each first call in a file, so that the program links and runs without the recorder. */
ERASER_UNWATCHED void *eraser_find(void **place, const char *name)
{
    void *found = __atomic_load_n(place, __ATOMIC_RELAXED);
    if (!found) {
        found = dlsym((void *)0, name);
        if (!found)
            found = (void *)place; /* the recorder isn't there */
        __atomic_store_n(place, found, __ATOMIC_RELAXED);
    }
    return found == (void *)place ? (void *)0 : found;
}

ERASER_UNWATCHED void eraser_call(void **place, const char *name)
{
    void *found = eraser_find(place, name);
    if (found)
        ((void (*)(void))found)();
}

ERASER_UNWATCHED void eraser_call_lock(void **place, const char *name, const volatile void *lock)
{
    void *found = eraser_find(place, name);
    if (found)
        ((void (*)(const volatile void *))found)(lock);
}

ERASER_UNWATCHED void eraser_call_memory(void **place, const char *name, const volatile void *address, size_t size)
{
    void *found = eraser_find(place, name);
    if (found)
        ((void (*)(const volatile void *, size_t))found)(address, size);
}

#define ERASER_CALL(call, ...)                   \
    do {                                         \
        static void *eraser_place;               \
        call(&eraser_place, __VA_ARGS__);        \
    } while (0)

#define ERASER_REUSE(address, size) ERASER_CALL(eraser_call_memory, "eraser_reuse", (address), (size))
#define ERASER_IGNORE_ON() ERASER_CALL(eraser_call, "eraser_ignore_on")
#define ERASER_IGNORE_OFF() ERASER_CALL(eraser_call, "eraser_ignore_off")
#define ERASER_READ_LOCK(lock) ERASER_CALL(eraser_call_lock, "eraser_read_lock", (lock))
#define ERASER_READ_UNLOCK(lock) ERASER_CALL(eraser_call_lock, "eraser_unlock", (lock))
#define ERASER_WRITE_LOCK(lock) ERASER_CALL(eraser_call_lock, "eraser_write_lock", (lock))
#define ERASER_WRITE_UNLOCK(lock) ERASER_CALL(eraser_call_lock, "eraser_unlock", (lock))

#else

#define ERASER_REUSE(address, size) ((void)(address), (void)(size))
#define ERASER_IGNORE_ON() ((void)0)
#define ERASER_IGNORE_OFF() ((void)0)
#define ERASER_READ_LOCK(lock) ((void)(lock))
#define ERASER_READ_UNLOCK(lock) ((void)(lock))
#define ERASER_WRITE_LOCK(lock) ((void)(lock))
#define ERASER_WRITE_UNLOCK(lock) ((void)(lock))

#endif

#endif
