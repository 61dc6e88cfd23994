/* Operations that load and store at once. One that fails to exchange stores nothing, so it hands over nothing. */
#include "../meet.h"

static int spin_lock, under_lock, counter, mine[2], taken, handed_over, failed, by_failed, weak, by_weak;

static void lock_it(void)
{
    while (__atomic_exchange_n(&spin_lock, 1, __ATOMIC_ACQUIRE))
        sched_yield();
}

static void unlock_it(void)
{
    __atomic_store_n(&spin_lock, 0, __ATOMIC_RELEASE);
}

/* Whoever counts second may use what both have written before. */
static void count(int number)
{
    mine[number]++;
    if (__atomic_fetch_add(&counter, 1, __ATOMIC_ACQ_REL) == 1)
        mine[number] += mine[1 - number]++;
}

static int exchange(int *at, int from, int to, int order, int if_failed)
{
    return __atomic_compare_exchange_n(at, &from, to, 0, order, if_failed);
}

static void first(void)
{
    by_failed++;
    exchange(&failed, 7, 8, __ATOMIC_SEQ_CST, __ATOMIC_SEQ_CST);
    by_weak++;
    exchange(&weak, 0, 1, __ATOMIC_RELAXED, __ATOMIC_RELAXED);
    next_turn();
}

static void second(void)
{
    take_turn(1);
    __atomic_load_n(&failed, __ATOMIC_ACQUIRE);
    by_failed++; /* UNORDERED */
    exchange(&weak, 1, 2, __ATOMIC_ACQ_REL, __ATOMIC_ACQUIRE);
    by_weak++; /* UNORDERED */
}

static void hand_over(int number)
{
    if (number == 0) {
        handed_over++;
        exchange(&taken, 0, 1, __ATOMIC_RELEASE, __ATOMIC_RELAXED);
    } else {
        while (!exchange(&taken, 1, 2, __ATOMIC_ACQUIRE, __ATOMIC_RELAXED))
            sched_yield();
        handed_over++;
    }
}

static void run(int number)
{
    if (number == 0)
        first();
    else
        second();
    count(number);
    hand_over(number);
    for (int i = 0; i < 10; i++) {
        lock_it();
        under_lock++;
        unlock_it();
    }
}

int main(void)
{
    run_threads(2, run);
    return 0;
}
