/* Counts the signals that --stop-at-race sends: one for each place, however many words race there. */
#include "stops.h"

static int some[10], others[10];

static void work(int number)
{
    take_turn(number);
    for (int i = 0; i < 10; i++)
        some[i] = number; /* RACE */
    for (int i = 0; i < 10; i++)
        others[i] = number; /* RACE */
    next_turn();
}

int main(void)
{
    signal(SIGTRAP, count);
    run_threads(2, work);
    printf("%d\n", stopped);
    return 0;
}
