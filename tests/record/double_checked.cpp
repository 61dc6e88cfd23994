// Double-checked initialisation: both threads see no instance, and then one of them makes it under the lock.
#include "meet.h"

#include <mutex>

struct Instance { int value = 7; };
static Instance *instance;
static std::mutex making;

static Instance *get()
{
    bool is_made = instance != nullptr;
    meet();
    if (!is_made) {
        std::lock_guard<std::mutex> held(making);
        if (!instance)
            instance = new Instance; // RACE
    }
    return instance;
}

static void work(int)
{
    if (get()->value != 7)
        exit(1);
}

int main()
{
    run_threads(2, work);
}
