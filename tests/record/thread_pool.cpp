// A pool whose workers live as long as the program. Each job has a block of memory, which its worker fills and frees; the next job gets the
// same block, for any worker.
#include "meet.h"

#include <condition_variable>
#include <deque>
#include <mutex>

static std::mutex lock;
static std::condition_variable ready, taken;
static std::deque<char *> *jobs = new std::deque<char *>;
static int done, noted;

static char *take()
{
    std::unique_lock<std::mutex> held(lock);
    ready.wait(held, [] { return !jobs->empty(); });
    char *block = jobs->front();
    jobs->pop_front();
    return block;
}

static void serve()
{
    while (char *block = take()) {
        for (int i = 0; i < 2000; i++)
            block[i] = (char)i;
        free(block);
        std::lock_guard<std::mutex> held(lock);
        done++;
        taken.notify_one();
    }
}

static void put(char *block)
{
    std::lock_guard<std::mutex> held(lock);
    jobs->push_back(block);
    ready.notify_one();
}

static void work(int number)
{
    meet();
    noted++; // RACE
    if (number != 0)
        return serve();
    char *first = nullptr;
    bool is_same = false;
    for (int i = 0; i < 30; i++) {
        char *block = (char *)malloc(2000);
        is_same |= block == first;
        first = first ? first : block;
        put(block);
        std::unique_lock<std::mutex> held(lock);
        taken.wait(held, [=] { return done == i + 1; });
    }
    put(nullptr);
    put(nullptr);
    printf("same block %d\n", is_same);
}

int main()
{
    run_threads(3, work);
}
