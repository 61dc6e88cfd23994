// Blocks that go from thread to thread through an allocator: each thread writes to its blocks without a lock, and gives them back.
#include <atomic>
#include <cstdio>
#include <cstdlib>
#include <mutex>
#include <thread>
#include <vector>

#ifndef GIVE_BACK
#define GIVE_BACK(block) std::free(block)
#endif

static std::mutex lock;
static long sum, bare;
static std::atomic<int> arrived;

static void use(int number)
{
    for (int round = 0; round < 200; round++) {
        auto *words = static_cast<int *>(std::malloc(64));
        auto *objects = new long[8];
        for (int at = 0; at < 8; at++) {
            words[2 * at] = number;
            objects[at] = number;
        }
        {
            std::lock_guard<std::mutex> held(lock);
            sum += words[0] + objects[7];
        }
        GIVE_BACK(words);
        delete[] objects;
    }
}

// Both have begun before one of them counts, and nothing orders that.
static void count()
{
    arrived.fetch_add(1, std::memory_order_relaxed);
    while (arrived.load(std::memory_order_relaxed) < 2)
        std::this_thread::yield();
    bare++; // RACE
}

int main()
{
    for (int round = 0; round < 3; round++) {
        std::vector<std::thread> threads;
        for (int number = 0; number < 4; number++)
            threads.emplace_back(use, number);
        for (auto &thread : threads)
            thread.join();
    }
    std::thread one(count), other(count);
    one.join();
    other.join();
    std::lock_guard<std::mutex> held(lock);
    std::printf("%ld\n", sum);
}
