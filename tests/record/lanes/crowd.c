/* Many threads at a time, and many one after the other: `crowd THREADS ROUNDS WRITES`. In each round the threads meet, and then each makes its writes, to
 * the words of a row of its own in their order. Prints nothing. */
#include "../meet.h"

#define MOST 1024
#define WORDS 16

static long writes;
static volatile int rows[MOST][WORDS];

static void *work(void *row)
{
    volatile int *mine = row;
    meet();
    for (long i = 0; i < writes; i++)
        mine[i % WORDS] = 1; /* ROW */
    return NULL;
}

int main(int words, char **word)
{
    int count = words > 1 ? atoi(word[1]) : 2, rounds = words > 2 ? atoi(word[2]) : 1;
    static pthread_t threads[MOST];
    pthread_attr_t small;
    writes = words > 3 ? atol(word[3]) : 10;
    pthread_attr_init(&small);
    pthread_attr_setstacksize(&small, 65536);
    pthread_barrier_init(&meeting, NULL, (unsigned)count);
    for (int round = 0; round < rounds; round++) {
        for (int i = 0; i < count; i++)
            if (pthread_create(&threads[i], &small, work, (void *)rows[i]) != 0)
                return 99;
        for (int i = 0; i < count; i++)
            pthread_join(threads[i], NULL);
    }
    return 0;
}
