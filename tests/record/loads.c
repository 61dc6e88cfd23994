/* Code that is loaded while the program runs. */
#include "meet.h"

#include <dlfcn.h>

static void (*step)(void);

static void work(int number)
{
    (void)number;
    meet();
    step();
}

int main(int count, char **words)
{
    void *plugin = count > 1 ? dlopen(words[1], RTLD_NOW) : NULL;
    if (!plugin)
        return 1;
    *(void **)&step = dlsym(plugin, "step");
    run_threads(2, work);
    return dlclose(plugin);
}
