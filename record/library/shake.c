/* `record/run --shake`: before a thread acquires, signals or starts something, it may wait for a short and random time. So threads meet that would not meet
 * otherwise: without it, one of them has often done all before another one comes. No event waits, only what comes before it. */
#include "emit.h"

#include <errno.h>
#include <sys/syscall.h>
#include <time.h>
#include <unistd.h>

/* Of a thread's first calls every second one waits on the average, and later one of LATER_WAITS, so that a program which locks often stays usable. */
#define FIRST_CALLS 64
#define LATER_WAITS 32
/* A wait is shorter than two to this power microseconds. */
#define LONGEST 10

/* By splitmix64. Each thread has its own numbers, by the seed and its number among the threads. */
static uint64_t draw(struct self *me)
{
    if (!me->calls++)
        me->random = attached->seed * UINT64_C(0xd1342543de82ef95) + me->number;
    uint64_t mixed = me->random += UINT64_C(0x9e3779b97f4a7c15);
    mixed = (mixed ^ mixed >> 30) * UINT64_C(0xbf58476d1ce4e5b9);
    mixed = (mixed ^ mixed >> 27) * UINT64_C(0x94d049bb133111eb);
    return mixed ^ mixed >> 31;
}

void shake_thread(void)
{
    struct self *me = &self;
    uint64_t drawn = draw(me);
    int error = errno;
    if (drawn % (me->calls <= FIRST_CALLS ? 2 : LATER_WAITS) == 0) {
        uint64_t power = (drawn >> 8) % (LONGEST + 1), part = drawn >> 16;
        struct timespec pause = {0, (long)(part % (UINT64_C(1000) << power))};
        syscall(SYS_nanosleep, &pause, NULL);
    }
    errno = error;
}
