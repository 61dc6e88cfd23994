/* A program that has a `free` itself, which counts and calls the C library's. Blocks go from thread to thread, and are as they were. */
#define _GNU_SOURCE
#include "meet.h"

#include <dlfcn.h>

static int count;

void free(void *block)
{
    static void (*real)(void *);
    if (!real)
        *(void **)&real = dlsym(RTLD_NEXT, "free");
    __atomic_fetch_add(&count, block != NULL, __ATOMIC_RELAXED);
    real(block);
}

static void *fill(void *block)
{
    for (int i = 0; i < 500; i++)
        ((int *)block)[i] = i;
    free(block);
    return NULL;
}

int main(void)
{
    pthread_t thread;
    for (int i = 0; i < 10; i++) {
        pthread_create(&thread, NULL, fill, malloc(2000));
        pthread_join(thread, NULL);
    }
    return __atomic_load_n(&count, __ATOMIC_RELAXED) < 10;
}
