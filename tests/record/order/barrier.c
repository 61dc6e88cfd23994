/* Rounds of a barrier. In the second round one thread runs ahead of the other, to the third. */
#include "../meet.h"

static int slots[2], ahead;
static pthread_barrier_t rounds;

static void run(int number)
{
    for (int i = 0; i < 5; i++) {
        slots[number]++;
        pthread_barrier_wait(&rounds);
        if (slots[1 - number] != i + 1)
            exit(99);
        pthread_barrier_wait(&rounds);
    }
    if (number == 0) {
        ahead++;
        next_turn();
        pthread_barrier_wait(&rounds);
    } else {
        take_turn(1);
        ahead++; /* UNORDERED */
        pthread_barrier_wait(&rounds);
    }
}

int main(void)
{
    pthread_barrier_init(&rounds, NULL, 2);
    run_threads(2, run);
    return 0;
}
