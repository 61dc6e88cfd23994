/* OpenMP: what its regions, barriers, critical sections and locks order, and what these protect (LOCKED). Threads of a region go on while others are in
 * the barrier, and one of them writes what all read behind it. */
#include <omp.h>
#include <stdio.h>

#define COUNT 1000

static int words[COUNT], sum, shared, copied, in_turn, by_critical, by_name, by_lock, by_nest, by_try, outer, bare;
static omp_lock_t lock;
static omp_nest_lock_t nest;

/* Each region comes after the one before, and the main thread after all. */
static void loops(void)
{
    for (int round = 0; round < 2; round++) {
#pragma omp parallel for num_threads(4)
        for (int at = 0; at < COUNT; at++)
            words[at]++;
#pragma omp parallel for num_threads(4) schedule(dynamic, 16)
        for (int at = 0; at < COUNT; at++)
            words[COUNT - 1 - at]++;
#pragma omp parallel for num_threads(4) schedule(guided) reduction(+ : sum)
        for (int at = 0; at < COUNT; at++)
            sum += words[at];
#pragma omp parallel for num_threads(4) schedule(runtime)
        for (int at = 0; at < COUNT; at++)
            words[at] += words[at] > 0;
    }
    for (int at = 0; at < COUNT; at++)
        sum += words[at];
}

static void barriers(void)
{
#pragma omp parallel num_threads(4)
    for (int round = 0; round < 3; round++) {
        int mine = 0;
        if (omp_get_thread_num() == round)
            shared = round;
#pragma omp barrier
        mine = shared;
#pragma omp for schedule(dynamic)
        for (int at = 0; at < COUNT; at++)
            words[at] += mine;
#pragma omp for
        for (int at = 0; at < COUNT; at++)
            words[COUNT - 1 - at]++;
#pragma omp single copyprivate(mine)
        mine = ++copied;
#pragma omp sections
        {
#pragma omp section
            words[0] = mine;
#pragma omp section
            words[1] = mine;
        }
        if (omp_get_thread_num() == 3 - round)
            words[2] = words[0] + words[1];
#pragma omp barrier
    }
#pragma omp parallel for num_threads(4) ordered schedule(static, 1)
    for (int at = 0; at < 16; at++)
#pragma omp ordered
        in_turn += at;
}

static void locks(void)
{
    omp_init_lock(&lock);
    omp_init_nest_lock(&nest);
#pragma omp parallel num_threads(4)
    {
#pragma omp critical
        by_critical++; /* LOCKED */
#pragma omp critical(named)
        by_name++; /* LOCKED */
        omp_set_lock(&lock);
        by_lock++; /* LOCKED */
        omp_unset_lock(&lock);
        omp_set_nest_lock(&nest);
        omp_set_nest_lock(&nest);
        by_nest++; /* LOCKED */
        omp_unset_nest_lock(&nest);
        by_nest++; /* LOCKED */
        omp_unset_nest_lock(&nest);
        if (omp_test_lock(&lock)) {
            by_try++; /* LOCKED */
            omp_unset_lock(&lock);
        }
    }
    omp_destroy_lock(&lock);
    omp_destroy_nest_lock(&nest);
}

/* One region in another: that of each thread has its own threads. */
static void nested(void)
{
    omp_set_max_active_levels(2);
#pragma omp parallel num_threads(2)
    {
        int own[2] = {0, 0};
#pragma omp parallel num_threads(2)
        {
            own[omp_get_thread_num()]++;
#pragma omp barrier
            own[1 - omp_get_thread_num()]++;
        }
#pragma omp critical
        outer += own[0] + own[1]; /* LOCKED */
    }
}

static void races(void)
{
#pragma omp parallel num_threads(4)
    {
#pragma omp barrier
        bare++; /* UNORDERED */
    }
}

int main(void)
{
    loops();
    barriers();
    locks();
    nested();
    races();
    return in_turn == 120 && by_nest == 8 && by_critical == 4 ? 0 : 1;
}
