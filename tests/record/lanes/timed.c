/* Threads that the C library makes for a timer, and ends: `timed COUNT`. The recorder sees neither. Each makes one write. Prints how many there were. */
#define _GNU_SOURCE
#include "../meet.h"

#include <signal.h>
#include <unistd.h>

/* Added to `begun` once there are enough. Who begins after that, as some do that were on their way, writes nothing. */
#define CLOSED (1 << 30)

static volatile int value;
static int begun, ended;

static void tick(union sigval nothing)
{
    (void)nothing;
    if (__atomic_fetch_add(&begun, 1, __ATOMIC_SEQ_CST) >= CLOSED)
        return;
    value = 1; /* TICK */
    __atomic_fetch_add(&ended, 1, __ATOMIC_SEQ_CST);
}

int main(int count, char **words)
{
    int wanted = count > 1 ? atoi(words[1]) : 100;
    struct sigevent event = {.sigev_notify = SIGEV_THREAD, .sigev_notify_function = tick};
    struct itimerspec often = {{0, 50000}, {0, 50000}}, never = {{0, 0}, {0, 0}};
    timer_t timer;
    if (timer_create(CLOCK_MONOTONIC, &event, &timer) != 0)
        return 99;
    timer_settime(timer, 0, &often, NULL);
    while (__atomic_load_n(&begun, __ATOMIC_SEQ_CST) < wanted)
        usleep(1000);
    timer_settime(timer, 0, &never, NULL);
    int writers = __atomic_fetch_add(&begun, CLOSED, __ATOMIC_SEQ_CST);
    while (__atomic_load_n(&ended, __ATOMIC_SEQ_CST) < writers)
        usleep(1000);
    printf("%d\n", writers);
    fflush(stdout);
    _exit(0);
}
