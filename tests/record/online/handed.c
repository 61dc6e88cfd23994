/* A lock that another thread releases, and then many others, before the thread that took it does anything more: it holds it no more. */
#include "../meet.h"

#include "../../../record/eraser.h"

#define OTHERS 2000

static int gate, bare;
static char others[OTHERS];

static void work(int number)
{
    if (number == 0) {
        ERASER_WRITE_LOCK(&gate);
        next_turn();
        take_turn(2);
        bare = 1; /* RACE */
    } else {
        take_turn(1);
        ERASER_WRITE_UNLOCK(&gate);
        for (int at = 0; at < OTHERS; at++)
            ERASER_WRITE_UNLOCK(&others[at]);
        ERASER_WRITE_LOCK(&gate);
        bare = 2;
        ERASER_WRITE_UNLOCK(&gate);
        next_turn();
    }
}

int main(void)
{
    run_threads(2, work);
    return 0;
}
