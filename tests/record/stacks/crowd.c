/* Threads that make the same new stacks at once. */
#include "marks.h"

#define THREADS 4
#define HEIGHT 9

static pthread_barrier_t meeting;

APART static void tree(int height)
{
    shared++; /* @tree */
    if (height) {
        tree(height - 1); /* @left */
        tree(height - 1); /* @right */
    }
    __asm__ volatile("");
}

static void *work(void *nothing)
{
    pthread_barrier_wait(&meeting);
    tree(HEIGHT); /* @root */
    return nothing;
}

int main(void)
{
    pthread_t threads[THREADS];
    pthread_barrier_init(&meeting, NULL, THREADS);
    for (int i = 0; i < THREADS; i++)
        pthread_create(&threads[i], NULL, work, NULL);
    for (int i = 0; i < THREADS; i++)
        pthread_join(threads[i], NULL);
    return 0;
}
