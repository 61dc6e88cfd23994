/* What one thread writes into a pipe, an eventfd or a socket and another one reads, and what it hands to an epoll: who reads comes after who wrote. Without
 * `record/run --order` these functions only call the real ones. */
#include "files.h"

#include <sys/epoll.h>
#include <sys/eventfd.h>
#include <sys/stat.h>
#include <sys/uio.h>
#include <unistd.h>

#define NO_CHANNEL ((struct channel){OBJECT_PIPE, NULL})

/* A file of no type has no name in any folder: an eventfd, for example. */
static struct channel channel_of(int file, struct channel socket_channel(int))
{
    struct stat found;
    int error = errno;
    bool is_known = fstat(file, &found) == 0;
    errno = error;
    if (is_known && S_ISFIFO(found.st_mode))
        return (struct channel){OBJECT_PIPE, (const volatile void *)(uintptr_t)(PIPES + 64 * (uint64_t)found.st_ino)};
    if (is_known && S_ISSOCK(found.st_mode))
        return socket_channel(file);
    return is_known && (found.st_mode & S_IFMT) == 0 ? descriptor_channel(OBJECT_PIPE, file) : NO_CHANNEL;
}

static struct channel channel_to(int file)
{
    return channel_of(file, socket_channel_to);
}

static struct channel channel_from(int file)
{
    return channel_of(file, socket_channel_from);
}

/* What ends with a descriptor. Nobody reads that an eventfd was closed, and what has its number next is another file. */
static struct channel channel_closed(int file)
{
    struct channel channel = channel_to(file);
    return channel.object == descriptor_channel(OBJECT_PIPE, file).object ? NO_CHANNEL : channel;
}

/* A read of no bytes reads nothing, so its 0 is not the end. */
static bool has_room(const struct iovec *parts, int count)
{
    for (int nth = 0; nth < count; nth++)
        if (parts[nth].iov_len)
            return true;
    return false;
}

/* What the C library's headers make of a read if the compiler doesn't know that it fits. */
ssize_t __read_chk(int file, void *bytes, size_t size, size_t room);

#define WRITE(type, name, parameters, arguments, is_done) WRITE_TO(channel_to(file), may_wait(file), type, name, parameters, arguments, is_done)
#define READ(type, name, parameters, arguments, is_done) READ_FROM(channel_from(file), type, name, parameters, arguments, is_done)

WRITE(ssize_t, write, (int file, const void *bytes, size_t size), (file, bytes, size), result > 0)
WRITE(ssize_t, writev, (int file, const struct iovec *parts, int count), (file, parts, count), result > 0)
WRITE(int, eventfd_write, (int file, eventfd_t count), (file, count), result == 0)
/* Who reads to the end comes after who closed the other one. A socket that lingers waits, even with O_NONBLOCK. */
WRITE_TO(channel_closed(file), true, int, close, (int file), (file), result == 0)
READ(ssize_t, read, (int file, void *bytes, size_t size), (file, bytes, size), result > 0 || (!result && size))
READ(ssize_t, __read_chk, (int file, void *bytes, size_t size, size_t room), (file, bytes, size, room), result > 0 || (!result && size))
READ(ssize_t, readv, (int file, const struct iovec *parts, int count), (file, parts, count), result > 0 || (!result && has_room(parts, count)))
READ(int, eventfd_read, (int file, eventfd_t *count), (file, count), result == 0)

/* Younger than the oldest C library that this is built with. */
int epoll_pwait2(int poll, struct epoll_event *events, int room, const struct timespec *time, const sigset_t *signals);

/* A thread that waits at an epoll comes after those that put something there. */
#define POLL(file) descriptor_channel(OBJECT_POLL, file)
WRITE_TO(how == EPOLL_CTL_DEL ? NO_CHANNEL : POLL(poll), false, int, epoll_ctl, (int poll, int how, int file, struct epoll_event *event),
         (poll, how, file, event), result == 0)
READ_FROM(POLL(poll), int, epoll_wait, (int poll, struct epoll_event *events, int room, int time), (poll, events, room, time), result > 0)
READ_FROM(POLL(poll), int, epoll_pwait, (int poll, struct epoll_event *events, int room, int time, const sigset_t *signals), (poll, events, room, time, signals),
          result > 0)
READ_FROM(POLL(poll), int, epoll_pwait2, (int poll, struct epoll_event *events, int room, const struct timespec *time, const sigset_t *signals),
          (poll, events, room, time, signals), result > 0)

/* A descriptor that was another one's. */
#define NEW(name, parameters, arguments, kind)                    \
    HOOK int name parameters                                      \
    {                                                             \
        int file = REAL(name) arguments;                          \
        if (file >= 0)                                            \
            emit_object_begin(descriptor_channel(kind, file).object); \
        return file;                                              \
    }

NEW(eventfd, (unsigned count, int how), (count, how), OBJECT_PIPE)
NEW(epoll_create, (int size), (size), OBJECT_POLL)
NEW(epoll_create1, (int how), (how), OBJECT_POLL)
