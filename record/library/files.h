/* How hooks of descriptors record that threads hand over something by one. */
#ifndef ERASER_FILES_H
#define ERASER_FILES_H

#include "emit.h"

#include <errno.h>
#include <fcntl.h>
#include <pthread.h>
#include <sys/socket.h>

/* Objects that lie nowhere in the program's memory: a pipe by the number that both ends of it have, a socket by its addresses, another file by its
 * descriptor. */
#define PIPES (UINT64_C(1) << 62)
#define SOCKETS (UINT64_C(3) << 61)
#define DESCRIPTORS (UINT64_C(1) << 61)

/* What a thread that writes to a descriptor signals, and one that reads from it awaits. */
struct channel {
    enum object_kind kind;
    const volatile void *object; /* NULL if it orders nothing */
};
/* Those of a socket. */
struct channel socket_channel_to(int file);
struct channel socket_channel_from(int file);

static inline struct channel descriptor_channel(enum object_kind kind, int file)
{
    return (struct channel){kind, (const volatile void *)(uintptr_t)(DESCRIPTORS + 64 * (uint64_t)(unsigned)file)};
}

/* A write that may have to wait is a signal before it. One that fails instead is a signal only if it succeeded. */
struct sending {
    struct channel channel;
    bool is_drawn;
    struct draft draft;
};

static inline __attribute__((always_inline)) void begin_sending(struct sending *sending, bool may_wait, uint64_t site)
{
    shake();
    if (may_wait)
        emit_signal(sending->channel.kind, sending->channel.object, site);
    else
        sending->is_drawn = emit_draw(&sending->draft);
}

static inline __attribute__((always_inline)) void end_sending(const struct sending *sending, bool is_done, uint64_t site)
{
    if (sending->is_drawn)
        emit_publish(&sending->draft, is_done ? EVENT_SIGNAL : EVENT_VOID, sending->channel.kind, (uintptr_t)sending->channel.object, site);
}

/* The thread was cancelled before it wrote. */
static inline __attribute__((always_inline)) void cancel_sending(void *sending)
{
    end_sending(sending, false, 0);
}

static inline bool may_wait(int file)
{
    return !(fcntl(file, F_GETFL) & O_NONBLOCK);
}

/* A function of this library in place of the C library's, which writes to `file`. */
#define WRITE_TO(by, waits, type, name, parameters, arguments, is_done)                                         \
    FIND_EARLY(name)                                                                                                \
    HOOK type name parameters                                                                                       \
    {                                                                                                               \
        __typeof__(&name) real = find_##name();                                                                     \
        struct sending sending = {.is_drawn = false};                                                               \
        type result;                                                                                                \
        if (UNLIKELY(is_ordering()) && (sending.channel = (by)).object)                                             \
            begin_sending(&sending, waits, CALLER);                                                                 \
        pthread_cleanup_push(cancel_sending, &sending);                                                             \
        result = real arguments;                                                                                    \
        pthread_cleanup_pop(0);                                                                                     \
        end_sending(&sending, is_done, CALLER);                                                                     \
        return result;                                                                                              \
    }

/* One that reads from it. */
#define READ_FROM(by, type, name, parameters, arguments, is_done)                                               \
    FIND_EARLY(name)                                                                                                \
    HOOK type name parameters                                                                                       \
    {                                                                                                               \
        type result = find_##name() arguments;                                                                      \
        if (UNLIKELY(is_ordering()) && (is_done)) {                                                                 \
            struct channel found = by;                                                                              \
            if (found.object)                                                                                       \
                emit_await(found.kind, found.object, CALLER);                                                       \
        }                                                                                                           \
        return result;                                                                                              \
    }

#endif
