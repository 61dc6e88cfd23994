/* A program that isn't instrumented and loads what is. It has a thread and holds a lock before, and releases that afterwards. */
#include "../meet.h"

#include <dlfcn.h>

static pthread_mutex_t lock = PTHREAD_MUTEX_INITIALIZER;
static pthread_t before;

static void *wait_for_end(void *nothing)
{
    take_turn(1);
    return nothing;
}

int main(int count, char **words)
{
    pthread_create(&before, NULL, wait_for_end, NULL);
    pthread_mutex_lock(&lock);
    void *plugin = count > 1 ? dlopen(words[1], RTLD_NOW) : NULL;
    int (*run)(void) = plugin ? (int (*)(void))dlsym(plugin, "run") : NULL;
    int result = run ? run() : 99;
    pthread_mutex_unlock(&lock);
    next_turn();
    pthread_join(before, NULL);
    return result;
}
