// moodycamel's queues, which are ordered by fences: three threads hand blocks of the heap to three others, and these numbers to the first one.
#include <concurrentqueue/blockingconcurrentqueue.h>
#include <concurrentqueue/concurrentqueue.h>

#include <cstdio>
#include <string>
#include <thread>
#include <vector>

constexpr int pairs = 3, jobs = 400;

struct Job {
    int number;
    std::string text;
};

int main() {
    moodycamel::ConcurrentQueue<Job *> queue(64);
    moodycamel::BlockingConcurrentQueue<int> done;
    std::vector<std::thread> all;
    for (int pair = 0; pair < pairs; pair++) {
        all.emplace_back([&, pair] {
            moodycamel::ProducerToken own(queue);
            for (int number = 0; number < jobs; number++) {
                Job *job = new Job{pair * 1000 + number, "job number " + std::to_string(number) + " of many"};
                number % 2 ? queue.enqueue(job) : queue.enqueue(own, job);
            }
        });
        all.emplace_back([&] {
            Job *job;
            for (int taken = 0; taken < jobs;) {
                if (!queue.try_dequeue(job)) {
                    std::this_thread::yield();
                    continue;
                }
                taken++;
                job->text += "!";
                done.enqueue(job->number + static_cast<int>(job->text.size()));
                delete job;
            }
        });
    }
    long sum = 0;
    for (int number = 0; number < pairs * jobs; number++) {
        int value;
        done.wait_dequeue(value);
        sum += value;
    }
    for (std::thread &one : all)
        one.join();
    std::printf("%ld\n", sum);
}
