// A queue under a mutex with condition variables: waits without and with a time, by both clocks. What it hands over is only read by the
// thread that takes it.
#include "meet.h"

#include <chrono>
#include <condition_variable>
#include <deque>
#include <mutex>

struct Job { int number; };
static std::deque<Job *> *jobs = new std::deque<Job *>;
static std::mutex lock;
static std::condition_variable ready;
static bool is_closed;
static int done, noted;

static void produce()
{
    for (int i = 0; i < 50; i++) {
        Job *job = new Job{i};
        std::lock_guard<std::mutex> held(lock);
        jobs->push_back(job);
        ready.notify_one();
    }
    std::lock_guard<std::mutex> held(lock);
    is_closed = true;
    ready.notify_all();
}

static Job *take(int way)
{
    std::unique_lock<std::mutex> held(lock);
    while (jobs->empty() && !is_closed)
        if (way == 0)
            ready.wait(held);
        else if (way == 1)
            ready.wait_for(held, std::chrono::milliseconds(1));
        else
            ready.wait_until(held, std::chrono::system_clock::now() + std::chrono::milliseconds(1));
    if (jobs->empty())
        return nullptr;
    Job *job = jobs->front();
    jobs->pop_front();
    return job;
}

static void work(int number)
{
    meet();
    if (number == 3)
        return produce();
    noted++; // RACE
    for (;;) {
        Job *job = take(number);
        if (!job)
            return;
        std::lock_guard<std::mutex> held(lock);
        done += job->number >= 0;
        delete job;
    }
}

int main()
{
    run_threads(4, work);
    std::lock_guard<std::mutex> held(lock);
    printf("%d\n", done);
}
