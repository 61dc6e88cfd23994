/* A barrier that one thread destroys as soon as it is let go, while another has yet to leave it: `leaves`, or `leaves anew`. Its memory is freed, or is another
 * barrier's. Whoever leaves late comes after all who had arrived. */
#include "../meet.h"

#include <string.h>

/* late.c has these. */
__attribute__((weak)) void be_late(void);
__attribute__((weak)) void let_late_go(void);

static pthread_barrier_t *barrier;
static int word;

static void *leave_late(void *nothing)
{
    be_late();
    pthread_barrier_wait(barrier);
    word++; /* LATE */
    return nothing;
}

int main(int count, char **words)
{
    pthread_t thread;
    barrier = malloc(sizeof *barrier);
    pthread_barrier_init(barrier, NULL, 2);
    if (pthread_create(&thread, NULL, leave_late, NULL) != 0)
        exit(99);
    word++;
    pthread_barrier_wait(barrier);
    pthread_barrier_destroy(barrier);
    if (count > 1 && strcmp(words[1], "anew") == 0)
        pthread_barrier_init(barrier, NULL, 2);
    else
        free(barrier);
    let_late_go();
    pthread_join(thread, NULL);
    return word != 2;
}
