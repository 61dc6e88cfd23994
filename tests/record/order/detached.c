/* Threads that nobody joins. A new one gets the stack of one that has ended, and its thread-local memory, from somebody who doesn't wait for it. */
#define _GNU_SOURCE
#include "../meet.h"

#include <semaphore.h>
#include <stdlib.h>

static sem_t ended;
static __thread char own[40];
static pthread_key_t key;

/* One byte of each word. */
static void fill(volatile char *bytes, size_t count)
{
    for (size_t i = 0; i < count; i += 4)
        bytes[i]++;
}

static void *use_stack(void *nothing)
{
    volatile char block[100];
    fill(block, sizeof block);
    fill(own, sizeof own);
    pthread_setspecific(key, malloc(40));
    fill(pthread_getspecific(key), 40);
    sem_post(&ended);
    return nothing;
}

/* Each starter waits for the end of its own threads alone. */
static void run(int number)
{
    (void)number;
    run_unjoined(6, use_stack);
}

int main(void)
{
    sem_init(&ended, 0, 0);
    pthread_key_create(&key, free);
    run_threads(4, run);
    for (int i = 0; i < 24; i++)
        sem_wait(&ended);
    return 0;
}
