/* What threads hand over by sockets and by an epoll. Who receives comes after who sent, and not after who could send nothing, or sent elsewhere. What is
 * elsewhere may have much the same addresses. */
#define _GNU_SOURCE
#include "../meet.h"

#include <arpa/inet.h>
#include <errno.h>
#include <netinet/in.h>
#include <sys/epoll.h>
#include <sys/eventfd.h>
#include <sys/socket.h>
#include <sys/uio.h>
#include <sys/un.h>
#include <unistd.h>

enum { STREAM, PAIR, NAMED, PARTS, ANSWERED, DATAGRAM, CONNECTED, MET, MANY, POLLED, ENDED, ELSEWHERE, REFUSED, COUNT };
/* Of each way a word of its own. */
static int handed[COUNT];
static int stream[2], pair[2], parts[2], datagram[2], ending[2], narrow[2], heard, named, met, other[2], poll, event;
static struct sockaddr_in place, six_place_as_four;
static struct sockaddr_in6 six_place;
static struct sockaddr_un path = {.sun_family = AF_UNIX};

static void check(int is_right)
{
    if (!is_right)
        exit(99);
}

/* A socket of this type that is bound to a port of this host. */
static int bound(int family, int type, void *address, socklen_t size)
{
    int file = socket(family, type, 0);
    check(file >= 0 && bind(file, address, size) == 0 && getsockname(file, address, &size) == 0);
    return file;
}

static void send_byte(int file)
{
    check(send(file, "x", 1, 0) == 1);
}

static void take_byte(int file)
{
    char byte;
    check(recv(file, &byte, 1, 0) == 1);
}

static void send_all(void)
{
    char byte = 1;
    struct iovec part = {&byte, 1};
    handed[STREAM]++;
    send_byte(stream[1]);
    handed[PAIR]++;
    send_byte(pair[1]);
    handed[NAMED]++;
    check(connect(socket(AF_UNIX, SOCK_STREAM, 0), (struct sockaddr *)&path, sizeof path) == 0);
    handed[PARTS]++;
    check(sendmsg(parts[1], &(struct msghdr){.msg_iov = &part, .msg_iovlen = 1}, 0) == 1);
    take_byte(parts[1]);
    handed[ANSWERED]++;
    handed[DATAGRAM]++;
    check(sendto(datagram[1], &byte, 1, 0, (struct sockaddr *)&place, sizeof place) == 1);
    handed[MANY]++;
    check(sendmmsg(datagram[1], &(struct mmsghdr){.msg_hdr = {&place, sizeof place, &part, 1, NULL, 0, 0}}, 1, 0) == 1);
    /* It listens for both versions of IP. */
    int file = socket(AF_INET, SOCK_STREAM, 0);
    handed[CONNECTED]++;
    check(connect(file, (struct sockaddr *)&six_place_as_four, sizeof six_place_as_four) == 0);
    take_turn(1);
    handed[MET]++;
    check(write(file, &byte, 1) == 1);
    handed[POLLED]++;
    check(epoll_ctl(poll, EPOLL_CTL_ADD, event, &(struct epoll_event){.events = EPOLLIN}) == 0);
    handed[ENDED]++;
    check(shutdown(ending[1], SHUT_WR) == 0);
    handed[ELSEWHERE]++;
    send_byte(other[1]);
    handed[REFUSED]++;
    check(send(narrow[1], &byte, 1, MSG_DONTWAIT | MSG_NOSIGNAL) == -1 && errno == EPIPE);
    next_turn();
    /* What it closes is a signal, too. */
    take_turn(3);
    close(file);
}

static void take_all(void)
{
    char byte;
    struct iovec part = {&byte, 1};
    take_byte(stream[0]);
    handed[STREAM]++;
    take_byte(pair[0]);
    handed[PAIR]++;
    check(accept(named, NULL, NULL) >= 0);
    handed[NAMED]++;
    check(recvmsg(parts[0], &(struct msghdr){.msg_iov = &part, .msg_iovlen = 1}, 0) == 1);
    handed[PARTS]++;
    handed[ANSWERED]++;
    send_byte(parts[0]);
    check(recvfrom(datagram[0], &byte, 1, 0, NULL, NULL) == 1);
    handed[DATAGRAM]++;
    check(recvmmsg(datagram[0], &(struct mmsghdr){.msg_hdr = {NULL, 0, &part, 1, NULL, 0, 0}}, 1, 0, NULL) == 1);
    handed[MANY]++;
    met = accept4(heard, NULL, NULL, 0);
    check(met >= 0);
    handed[CONNECTED]++;
    next_turn();
    check(read(met, &byte, 1) == 1);
    handed[MET]++;
    struct epoll_event found;
    check(epoll_wait(poll, &found, 1, -1) == 1);
    handed[POLLED]++;
    check(recv(ending[0], &byte, 1, 0) == 0);
    handed[ENDED]++;
    take_turn(2);
    check(recv(narrow[0], &byte, 1, 0) == 0);
    handed[REFUSED]++;   /* UNORDERED */
    handed[ELSEWHERE]++; /* UNORDERED */
    next_turn();
    close(met);
}

static void run(int number)
{
    number == 0 ? send_all() : take_all();
}

/* A connection between two sockets of a host that no other process has, and with it these ports. Of all connections, the two ports have one sum. */
static void connect_two(int *two, int number)
{
    enum { FIRST = 20000, LAST = FIRST + 15 };
    struct sockaddr_in address = {.sin_family = AF_INET, .sin_addr.s_addr = htonl(INADDR_LOOPBACK + (in_addr_t)getpid())}, own = address;
    address.sin_port = htons((in_port_t)(FIRST + number));
    own.sin_port = htons((in_port_t)(LAST - number));
    int listening = bound(AF_INET, SOCK_STREAM, &address, sizeof address);
    check(listen(listening, 1) == 0);
    two[1] = bound(AF_INET, SOCK_STREAM, &own, sizeof own);
    check(connect(two[1], (struct sockaddr *)&address, sizeof address) == 0);
    two[0] = accept(listening, NULL, NULL);
    check(two[0] >= 0);
    close(listening);
}

int main(void)
{
    connect_two(stream, 0);
    connect_two(parts, 1);
    connect_two(ending, 2);
    connect_two(narrow, 3);
    connect_two(other, 4);
    check(shutdown(narrow[1], SHUT_WR) == 0);
    place = (struct sockaddr_in){.sin_family = AF_INET, .sin_addr.s_addr = htonl(INADDR_ANY)};
    datagram[0] = bound(AF_INET, SOCK_DGRAM, &place, sizeof place);
    place.sin_addr.s_addr = htonl(INADDR_LOOPBACK);
    datagram[1] = socket(AF_INET, SOCK_DGRAM, 0);
    /* A port alone is one object, of whatever type: so another one. */
    do {
        six_place = (struct sockaddr_in6){.sin6_family = AF_INET6};
        heard = bound(AF_INET6, SOCK_STREAM, &six_place, sizeof six_place);
    } while (six_place.sin6_port == place.sin_port);
    check(listen(heard, 1) == 0);
    six_place_as_four = (struct sockaddr_in){.sin_family = AF_INET, .sin_port = six_place.sin6_port, .sin_addr.s_addr = htonl(INADDR_LOOPBACK)};
    check(socketpair(AF_UNIX, SOCK_STREAM, 0, pair) == 0);
    /* A name in no folder: its first byte is 0. */
    snprintf(path.sun_path + 1, sizeof path.sun_path - 1, "eraser sockets %d", getpid());
    named = bound(AF_UNIX, SOCK_STREAM, &path, sizeof path);
    check(listen(named, 1) == 0);
    poll = epoll_create1(0);
    event = eventfd(1, 0);
    check(poll >= 0 && event >= 0);
    run_threads(2, run);
    return 0;
}
