/* The annotations of record/eraser.h. */
#include "meet.h"

#include "../../record/eraser.h"

static char own, shared_own; /* locks of the program's own */
static int guarded, table, wrong, ignored, handed, bare;

static void take(char *lock) { while (__atomic_exchange_n(lock, 1, __ATOMIC_ACQUIRE)) sched_yield(); }
static void give(char *lock) { __atomic_store_n(lock, 0, __ATOMIC_RELEASE); }

static void work(int number)
{
    meet();
    take(&own);
    ERASER_WRITE_LOCK(&own);
    guarded++;
    ERASER_WRITE_UNLOCK(&own);
    give(&own);

    take(&shared_own);
    ERASER_WRITE_LOCK(&shared_own);
    table++;
    ERASER_WRITE_UNLOCK(&shared_own);
    ERASER_READ_LOCK(&shared_own);
    wrong += table; /* RACE */
    ERASER_READ_UNLOCK(&shared_own);
    give(&shared_own);

    ERASER_IGNORE_ON();
    ERASER_IGNORE_ON();
    ignored++;
    ERASER_IGNORE_OFF();
    ignored++;
    ERASER_IGNORE_OFF();

    take_turn(number);
    if (number)
        ERASER_REUSE(&handed, sizeof handed);
    handed++;
    next_turn();
    meet();
    bare++; /* RACE */
}

int main(void)
{
    run_threads(2, work);
    return 0;
}
