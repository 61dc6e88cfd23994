/* The part of the measured program that is watched: additions to an array, and to a total under a mutex now and then. */
#include <pthread.h>

#include "measured.h"

static pthread_mutex_t lock = PTHREAD_MUTEX_INITIALIZER;
static unsigned long total;
static int bare; /* the race */

void add(unsigned *array, long times)
{
    for (long i = 0; i < times; i++)
        array[i % 64] += (unsigned)i;
    pthread_mutex_lock(&lock);
    total += array[0];
    pthread_mutex_unlock(&lock);
}

void race(void)
{
    bare++;
}
