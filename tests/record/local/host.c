/* Threads that nobody joins use the thread-local memory of plugin.c. The C library frees it when another thread gets the stack, and nothing orders
 * that in the program. */
#define _GNU_SOURCE
#include "../meet.h"

#include <dlfcn.h>
#include <semaphore.h>

static sem_t ended;
static void (*fill)(void);

static void *use(void *nothing)
{
    fill();
    sem_post(&ended);
    return nothing;
}

static void run(int number)
{
    (void)number;
    run_unjoined(12, use);
}

int main(int count, char **words)
{
    void *plugin = count == 2 ? dlopen(words[1], RTLD_NOW) : NULL;
    if (!plugin)
        return 99;
    fill = (void (*)(void))dlsym(plugin, "fill");
    sem_init(&ended, 0, 0);
    run_threads(4, run);
    for (int i = 0; i < 48; i++)
        sem_wait(&ended);
    return 0;
}
