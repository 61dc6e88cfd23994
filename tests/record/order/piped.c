/* What threads hand over by pipes and eventfd. Who reads comes after who wrote, and not after who could write nothing or wrote elsewhere. */
#define _GNU_SOURCE
#include "../meet.h"

#include <errno.h>
#include <fcntl.h>
#include <sys/eventfd.h>
#include <sys/uio.h>
#include <unistd.h>

static int blocks[2], parts[2], other[2], narrow[2], event, quick_event;
static int counted, quickly_counted, elsewhere, refused;

static void check(int is_right)
{
    if (!is_right)
        exit(99);
}

static int *fill(void)
{
    int *block = malloc(80);
    check(block != NULL);
    block[3] = 1;
    return block;
}

static void drop(int *block)
{
    block[3]++;
    free(block);
}

static void send_blocks(void)
{
    for (int i = 0; i < 3; i++) {
        int *block = fill(), *more = fill();
        check(write(blocks[1], &block, sizeof block) == sizeof block);
        check(writev(parts[1], &(struct iovec){&more, sizeof more}, 1) == sizeof more);
    }
}

static void receive_blocks(void)
{
    int *block;
    for (int i = 0; i < 3; i++) {
        check(read(blocks[0], &block, sizeof block) == sizeof block);
        drop(block);
        check(readv(parts[0], &(struct iovec){&block, sizeof block}, 1) == sizeof block);
        drop(block);
    }
}

static void send_events(void)
{
    uint64_t one = 1;
    counted++;
    check(write(event, &one, sizeof one) == sizeof one);
    quickly_counted++;
    check(eventfd_write(quick_event, 1) == 0);
}

static void receive_events(void)
{
    uint64_t count;
    check(read(event, &count, sizeof count) == sizeof count);
    counted++;
    while (eventfd_read(quick_event, &count) != 0)
        sched_yield();
    quickly_counted++;
}

/* A pipe that is full, and one that the other thread doesn't read. */
static void send_nothing(void)
{
    char byte = 1;
    refused++;
    check(write(narrow[1], &byte, 1) == -1 && errno == EAGAIN);
    elsewhere++;
    check(write(other[1], &byte, 1) == 1);
    next_turn();
}

static void receive_nothing(void)
{
    char byte;
    take_turn(1);
    check(read(narrow[0], &byte, 1) == 1);
    refused++; /* UNORDERED */
    elsewhere++; /* UNORDERED */
}

static void run(int number)
{
    if (number == 0) {
        send_blocks();
        send_events();
        send_nothing();
    } else {
        receive_blocks();
        receive_events();
        receive_nothing();
    }
}

int main(void)
{
    static const char bytes[4096];
    check(pipe(blocks) == 0 && pipe(parts) == 0 && pipe(other) == 0 && pipe2(narrow, O_NONBLOCK) == 0);
    while (write(narrow[1], bytes, sizeof bytes) > 0)
        ;
    while (write(narrow[1], bytes, 1) > 0)
        ;
    event = eventfd(0, 0);
    quick_event = eventfd(0, EFD_NONBLOCK);
    check(event >= 0 && quick_event >= 0);
    run_threads(2, run);
    return 0;
}
