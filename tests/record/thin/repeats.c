/* What --thin leaves out. A comment READS n or WRITES n says how many words a line has in such a trace. */
#include "../../../record/eraser.h"
#include "../meet.h"

static volatile int word, noted, guarded, handed;
static volatile char bytes[8];
static pthread_mutex_t lock = PTHREAD_MUTEX_INITIALIZER;

static void by_oneself(void)
{
    for (int i = 0; i < 10; i++)
        (void)noted; /* READS 1 */
    for (int i = 0; i < 10; i++)
        noted = i; /* WRITES 1 */
    for (int i = 0; i < 10; i++)
        (void)noted; /* READS 0: it has written it */
    for (int i = 0; i < 16; i++)
        bytes[i % 8] = 1; /* WRITES 8 */
}

static void by_turns(int number)
{
    for (int i = 0; i < 6; i++) {
        take_turn(2 * i + number);
        word = i; /* WRITES 12: another thread has come in between */
        word = i; /* WRITES 0 */
        next_turn();
    }
}

static void under_a_lock(void)
{
    for (int i = 0; i < 5; i++) {
        pthread_mutex_lock(&lock);
        guarded = i; /* WRITES 10: each time that somebody has taken the lock */
        guarded = i; /* WRITES 0 */
        pthread_mutex_unlock(&lock);
    }
}

/* The second thread puts the word to a new use each time. */
static void handed_over(int number)
{
    for (int i = 0; i < 5; i++) {
        take_turn(12 + 2 * i + number);
        if (number == 1)
            ERASER_REUSE((void *)&handed, sizeof handed);
        else
            handed = i; /* WRITES 5 */
        next_turn();
    }
}

static void run(int number)
{
    by_turns(number);
    handed_over(number);
    under_a_lock();
}

int main(void)
{
    by_oneself();
    run_threads(2, run);
    return 0;
}
