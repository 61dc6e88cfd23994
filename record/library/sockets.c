/* What threads hand over by sockets: who receives comes after who sent. Without `record/run --order` these functions only call the real ones. */
#include "files.h"

#include <netinet/in.h>
#include <string.h>
#include <sys/un.h>

/* ---- A connection by its addresses ---- */

static uint64_t mixed(uint64_t number, const void *bytes, size_t size)
{
    for (const unsigned char *at = bytes; size--; at++)
        number = (number ^ *at) * UINT64_C(0x100000001b3);
    return number;
}

/* A number of an address, or 0. An address of IPv4 has one number in both of its forms. */
static uint64_t number_of(const void *address, socklen_t size, bool with_host)
{
    const struct sockaddr_in *four = address;
    const struct sockaddr_in6 *six = address;
    const struct sockaddr_un *path = address;
    unsigned char host[16] = {[10] = 0xff, 0xff};
    uint64_t number = UINT64_C(0xcbf29ce484222325);
    if (!address || size < sizeof(sa_family_t) || size > sizeof(struct sockaddr_storage))
        return 0;
    if (four->sin_family == AF_INET && size >= sizeof *four)
        memcpy(host + 12, &four->sin_addr, 4);
    else if (six->sin6_family == AF_INET6 && size >= offsetof(struct sockaddr_in6, sin6_scope_id))
        memcpy(host, &six->sin6_addr, sizeof host);
    else if (path->sun_family == AF_UNIX) {
        size_t room = size - sizeof(sa_family_t);
        return mixed(number, path->sun_path, room && path->sun_path[0] ? strnlen(path->sun_path, room) : room);
    } else
        return mixed(number, address, size);
    if (with_host)
        number = mixed(number, host, sizeof host);
    return mixed(number, &four->sin_port, sizeof four->sin_port);
}

static struct channel channel_by(uint64_t number)
{
    return (struct channel){OBJECT_SOCKET, number ? (const volatile void *)(uintptr_t)(SOCKETS + 64 * (number >> 10)) : NULL};
}

/* What is sent to an address, whoever sends it. A socket that takes what comes to all hosts has the port alone. */
static struct channel channel_at(const void *address, socklen_t size)
{
    return channel_by(number_of(address, size, false));
}

typedef int address_of(int file, struct sockaddr *address, socklen_t *size);

static uint64_t number_at(int file, address_of find, bool with_host)
{
    struct sockaddr_storage address;
    socklen_t size = sizeof address;
    return find(file, (struct sockaddr *)&address, &size) == 0 ? number_of(&address, size, with_host) : 0;
}

/* Once both ends of a connection have ended what they send, getpeername fails, also if there is something left to be received. The kernel still knows the
 * address, and gives it to who asks for no more bytes than it has. */
static int find_peer(int file, struct sockaddr *address, socklen_t *size)
{
    static const socklen_t sizes[] = {sizeof(struct sockaddr_in6), sizeof(struct sockaddr_in)};
    if (getpeername(file, address, size) == 0)
        return 0;
    for (unsigned nth = 0; nth < sizeof sizes / sizeof *sizes; nth++) {
        *size = sizes[nth];
        if (getsockopt(file, SOL_SOCKET, SO_PEERNAME, address, size) == 0)
            return 0;
    }
    return -1;
}

/* The same number at both ends. A sum of the two would be that of other ends, too: of the ports 1 and 4 as of 2 and 3. */
static uint64_t number_of_ends(uint64_t one, uint64_t other)
{
    return one < other ? mixed(one, &other, sizeof other) : mixed(other, &one, sizeof one);
}

/* A connection is one object, whichever end somebody uses: it has the same two addresses at both. A datagram is of the address that it is sent to. */
static struct channel channel_of(int file, address_of target)
{
    int type = 0, error = errno;
    socklen_t size = sizeof type;
    getsockopt(file, SOL_SOCKET, SO_TYPE, &type, &size);
    bool is_connection = type == SOCK_STREAM || type == SOCK_SEQPACKET;
    uint64_t number = is_connection ? number_at(file, find_peer, true) : number_at(file, target, false);
    if (is_connection && number)
        number = number_of_ends(number, number_at(file, getsockname, true));
    errno = error;
    return channel_by(number);
}

struct channel socket_channel_to(int file)
{
    return channel_of(file, getpeername);
}

struct channel socket_channel_from(int file)
{
    return channel_of(file, getsockname);
}

static struct channel channel_to_any(int file, const void *address, socklen_t size)
{
    return address ? channel_at(address, size) : socket_channel_to(file);
}

static struct channel channel_of_message(int file, const struct msghdr *message)
{
    return message ? channel_to_any(file, message->msg_name, message->msg_namelen) : channel_by(0);
}

/* The first message's. Others may go elsewhere, and their signals come before. */
static struct channel channel_of_messages(int file, const struct mmsghdr *messages, unsigned count, uint64_t site)
{
    struct channel first = count && messages ? channel_of_message(file, &messages->msg_hdr) : channel_by(0);
    for (unsigned nth = 1; first.object && nth < count; nth++) {
        struct channel other = channel_of_message(file, &messages[nth].msg_hdr);
        if (other.object && other.object != first.object)
            emit_signal(other.kind, other.object, site);
    }
    return first;
}

/* Where a socket listens. */
static struct channel channel_heard(int file)
{
    int error = errno;
    uint64_t number = number_at(file, getsockname, false);
    errno = error;
    return channel_by(number);
}

/* ---- Hooks ---- */

/* What the C library's headers make of these if the compiler doesn't know that they fit. */
ssize_t __recv_chk(int file, void *bytes, size_t size, size_t room, int how);
ssize_t __recvfrom_chk(int file, void *bytes, size_t size, size_t room, int how, __SOCKADDR_ARG address, socklen_t *length);

#define WAITS (!(how & MSG_DONTWAIT) && may_wait(file))
/* What comes from the queue of errors is what was sent from here. */
#define RECEIVE(type, name, parameters, arguments) \
    READ_FROM(socket_channel_from(file), type, name, parameters, arguments, result >= 0 && !(how & MSG_ERRQUEUE))

WRITE_TO(socket_channel_to(file), WAITS, ssize_t, send, (int file, const void *bytes, size_t size, int how), (file, bytes, size, how), result >= 0)
WRITE_TO(channel_to_any(file, address.__sockaddr__, length), WAITS, ssize_t, sendto,
     (int file, const void *bytes, size_t size, int how, __CONST_SOCKADDR_ARG address, socklen_t length), (file, bytes, size, how, address, length), result >= 0)
WRITE_TO(channel_of_message(file, message), WAITS, ssize_t, sendmsg, (int file, const struct msghdr *message, int how), (file, message, how), result >= 0)
WRITE_TO(channel_of_messages(file, messages, count, CALLER), WAITS, int, sendmmsg, (int file, struct mmsghdr *messages, unsigned count, int how),
     (file, messages, count, how), result > 0)
WRITE_TO(socket_channel_to(file), may_wait(file), int, shutdown, (int file, int how), (file, how), result == 0)
WRITE_TO(channel_at(address.__sockaddr__, length), may_wait(file), int, connect, (int file, __CONST_SOCKADDR_ARG address, socklen_t length), (file, address, length),
     result == 0 || errno == EINPROGRESS)

RECEIVE(ssize_t, recv, (int file, void *bytes, size_t size, int how), (file, bytes, size, how))
RECEIVE(ssize_t, __recv_chk, (int file, void *bytes, size_t size, size_t room, int how), (file, bytes, size, room, how))
RECEIVE(ssize_t, recvfrom, (int file, void *bytes, size_t size, int how, __SOCKADDR_ARG address, socklen_t *length), (file, bytes, size, how, address, length))
RECEIVE(ssize_t, __recvfrom_chk, (int file, void *bytes, size_t size, size_t room, int how, __SOCKADDR_ARG address, socklen_t *length),
        (file, bytes, size, room, how, address, length))
RECEIVE(ssize_t, recvmsg, (int file, struct msghdr *message, int how), (file, message, how))
READ_FROM(socket_channel_from(file), int, recvmmsg, (int file, struct mmsghdr *messages, unsigned count, int how, struct timespec *time),
          (file, messages, count, how, time), result > 0 && !(how & MSG_ERRQUEUE))

/* Who connects comes before who lets it in. */
READ_FROM(channel_heard(file), int, accept, (int file, __SOCKADDR_ARG address, socklen_t *length), (file, address, length), result >= 0)
READ_FROM(channel_heard(file), int, accept4, (int file, __SOCKADDR_ARG address, socklen_t *length, int how), (file, address, length, how), result >= 0)
