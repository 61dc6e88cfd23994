/* Threads of which each waits for its turn, by what is not recorded (unseen.c): `turns THREADS ROUNDS`. Each writes once in each round. */
#include "../meet.h"

void wait_for(int number, int count);
void pass_on(void);

static int count, rounds;
static volatile int shared;

static void work(int number)
{
    for (int round = 0; round < rounds; round++) {
        wait_for(number, count);
        shared = round; /* TURN */
        pass_on();
    }
}

int main(int words, char **word)
{
    count = words > 1 ? atoi(word[1]) : 2;
    rounds = words > 2 ? atoi(word[2]) : 100;
    run_threads(count, work);
    return 0;
}
