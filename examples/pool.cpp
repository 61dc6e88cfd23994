// A pool of two workers: each adds up what its jobs yield under a mutex, and counts them without one.
#include <cstdio>
#include <cstdlib>
#include <cstring>
#include <mutex>
#include <thread>

static std::mutex lock;
static long total;     // protected by lock
static long jobs_done; // protected by nobody

static void work(int jobs)
{
    for (int job = 0; job < jobs; job++) {
        {
            std::lock_guard<std::mutex> held(lock);
            total += job;
        }
        jobs_done++;
    }
}

int main(int count, char **words)
{
    int jobs = count == 3 && std::strcmp(words[1], "--jobs") == 0 ? std::atoi(words[2]) : 1000;
    std::thread first(work, jobs), second(work, jobs);
    first.join();
    second.join();
    std::printf("%ld of %d jobs done\n", jobs_done, 2 * jobs);
}
