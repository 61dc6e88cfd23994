/* Many threads at once, each with words of its own, some under a lock, and one word that nobody protects. */
#include "../meet.h"

#define CROWD 200

static pthread_mutex_t locks[16];
static int guarded[16], own[CROWD][64], bare;
static pthread_t threads[CROWD];

static void *work(void *given)
{
    int number = (int)(long)given;
    meet();
    for (int i = 0; i < 640; i++) {
        own[number][i % 64] += i;
        pthread_mutex_lock(&locks[i % 16]);
        guarded[i % 16]++;
        pthread_mutex_unlock(&locks[i % 16]);
    }
    bare++; /* RACE */
    return NULL;
}

int main(void)
{
    int sum = 0;
    pthread_barrier_init(&meeting, NULL, CROWD);
    for (int i = 0; i < 16; i++)
        pthread_mutex_init(&locks[i], NULL);
    for (long i = 0; i < CROWD; i++)
        if (pthread_create(&threads[i], NULL, work, (void *)i) != 0)
            exit(99);
    for (int i = 0; i < CROWD; i++)
        pthread_join(threads[i], NULL);
    for (int i = 0; i < 16; i++) {
        pthread_mutex_lock(&locks[i]);
        sum += guarded[i];
        pthread_mutex_unlock(&locks[i]);
    }
    printf("%d\n", sum);
    return 0;
}
