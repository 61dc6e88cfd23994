/* Descriptors whose other end is gone, reads of no bytes, calls that fail for their arguments, and messages for several sockets at once. */
#define _GNU_SOURCE
#include "../meet.h"

#include <arpa/inet.h>
#include <errno.h>
#include <fcntl.h>
#include <netinet/in.h>
#include <stdint.h>
#include <sys/socket.h>
#include <sys/timerfd.h>
#include <sys/uio.h>
#include <unistd.h>

static int asked, answered, ended, first_sent, second_sent, nothing_read, no_part_read, timer_closed, queued;
static int half[2], pipe_ends[2], silent[2], ports[2], sender, timer, lone;
static struct sockaddr_in places[2];

static void check(int is_right)
{
    if (!is_right)
        exit(99);
}

/* A socket of this type that is bound to a port of this host. */
static int bound(int type, struct sockaddr_in *address)
{
    socklen_t size = sizeof *address;
    int file = socket(AF_INET, type, 0);
    *address = (struct sockaddr_in){.sin_family = AF_INET, .sin_addr.s_addr = htonl(INADDR_LOOPBACK)};
    check(file >= 0 && bind(file, (struct sockaddr *)address, size) == 0 && getsockname(file, (struct sockaddr *)address, &size) == 0);
    return file;
}

static struct itimerspec at_once(void)
{
    return (struct itimerspec){.it_value.tv_nsec = 1};
}

/* Who answers, and closes. */
static void answer(void)
{
    char byte;
    check(recv(half[0], &byte, 1, 0) == 1 && recv(half[0], &byte, 1, 0) == 0);
    asked++;
    answered++;
    check(send(half[0], &byte, 1, 0) == 1);
    ended++;
    check(close(half[0]) == 0);
    next_turn();
    struct iovec part = {&byte, 1};
    struct mmsghdr both[2] = {{.msg_hdr = {&places[0], sizeof *places, &part, 1, NULL, 0, 0}}, {.msg_hdr = {&places[1], sizeof *places, &part, 1, NULL, 0, 0}}};
    first_sent++;
    second_sent++;
    check(sendmmsg(sender, both, 2, 0) == 2);
    take_turn(2);
    nothing_read++;
    no_part_read++;
    check(write(silent[1], &byte, 1) == 1);
    timer_closed++;
    check(close(timer) == 0);
    queued++;
    check(sendto(sender, &byte, 1, 0, (struct sockaddr *)&places[0], sizeof *places) == 1);
    next_turn();
}

static void ask(void)
{
    char byte = 1;
    struct sockaddr_in peer;
    socklen_t size = sizeof peer;
    asked++;
    check(send(half[1], &byte, 1, 0) == 1 && shutdown(half[1], SHUT_WR) == 0);
    take_turn(1);
    /* The connection has no state any more, and a byte to be received. */
    while (getpeername(half[1], (struct sockaddr *)&peer, &size) == 0)
        sched_yield();
    check(errno == ENOTCONN && recv(half[1], &byte, 1, 0) == 1);
    answered++;
    check(recv(half[1], &byte, 1, 0) == 0);
    ended++;
    check(recv(ports[1], &byte, 1, 0) == 1);
    second_sent++;
    check(recv(ports[0], &byte, 1, 0) == 1);
    first_sent++;
    next_turn();
    take_turn(3);
    struct iovec parts[2] = {{&byte, 0}, {&byte, 0}};
    uint64_t count;
    struct itimerspec when = at_once();
    check(read(silent[0], &byte, 0) == 0);
    nothing_read++; /* UNORDERED */
    check(readv(silent[0], parts, 2) == 0);
    no_part_read++; /* UNORDERED */
    int next = timerfd_create(CLOCK_MONOTONIC, 0);
    check(dup2(next, timer) == timer && timerfd_settime(timer, 0, &when, NULL) == 0 && read(timer, &count, sizeof count) == sizeof count);
    timer_closed++; /* UNORDERED */
    struct mmsghdr none;
    check(recvmmsg(ports[0], &none, 0, MSG_DONTWAIT, NULL) == 0);
    queued++; /* UNORDERED */
}

static void run(int number)
{
    number == 0 ? answer() : ask();
}

/* What the kernel refuses is refused. */
static void be_refused(void)
{
    char byte = 1;
    struct sockaddr *volatile none = NULL;
    struct msghdr *volatile no_message = NULL;
    struct mmsghdr *volatile no_messages = NULL;
    check(connect(lone, none, sizeof *places) == -1 && errno == EFAULT);
    check(connect(lone, (struct sockaddr *)&places[0], UINT32_MAX / 2) == -1 && errno == EINVAL);
    check(sendto(sender, &byte, 1, 0, (struct sockaddr *)&places[0], UINT32_MAX / 2) == -1 && errno == EINVAL);
    check(sendmsg(sender, no_message, 0) == -1 && errno == EFAULT);
    check(sendmmsg(sender, no_messages, 1, 0) == -1 && errno == EFAULT);
    check(close(-1) == -1 && errno == EBADF);
    check(send(pipe_ends[1], &byte, 1, 0) == -1 && errno == ENOTSOCK && recv(pipe_ends[0], &byte, 1, 0) == -1 && errno == ENOTSOCK);
    int file = open("/dev/null", O_WRONLY);
    errno = EXDEV;
    check(write(file, &byte, 1) == 1 && close(file) == 0 && errno == EXDEV);
}

int main(void)
{
    struct sockaddr_in address;
    int listening = bound(SOCK_STREAM, &address);
    check(listen(listening, 1) == 0 && (half[1] = socket(AF_INET, SOCK_STREAM, 0)) >= 0);
    check(connect(half[1], (struct sockaddr *)&address, sizeof address) == 0 && (half[0] = accept(listening, NULL, NULL)) >= 0 && close(listening) == 0);
    ports[0] = bound(SOCK_DGRAM, &places[0]);
    ports[1] = bound(SOCK_DGRAM, &places[1]);
    sender = socket(AF_INET, SOCK_DGRAM, 0);
    lone = socket(AF_INET, SOCK_STREAM, 0);
    check(sender >= 0 && lone >= 0 && pipe(pipe_ends) == 0 && pipe(silent) == 0);
    timer = timerfd_create(CLOCK_MONOTONIC, 0);
    check(timer >= 0);
    be_refused();
    run_threads(2, run);
    return 0;
}
