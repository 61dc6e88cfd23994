// Objects that the last thread which uses them frees: by counted pointers, by futures, by an atomic counter of the program's own.
#include "../meet.h"

#include <atomic>
#include <future>
#include <memory>
#include <stdexcept>
#include <string>
#include <thread>
#include <vector>

struct Node {
    std::vector<int> words = std::vector<int>(20, 1);
    std::string name = "a name that has no room in the string itself";
};

struct Counted {
    std::atomic<int> users{3};
    int words[3] = {0, 0, 0};
};

static std::atomic<long> total{0};

static void use(std::shared_ptr<Node> node)
{
    long sum = 0;
    for (int word : node->words)
        sum += word;
    total += sum + (long)node->name.size();
}

static void leave(Counted *counted, int place)
{
    counted->words[place]++;
    if (counted->users.fetch_sub(1, std::memory_order_acq_rel) == 1)
        delete counted;
}

static int give(int number)
{
    if (number % 2)
        throw std::runtime_error("a message that has no room in the string itself");
    return number;
}

int main()
{
    std::vector<std::thread> threads;
    for (int round = 0; round < 2; round++) {
        auto node = std::make_shared<Node>();
        auto counted = new Counted;
        for (int i = 0; i < 3; i++) {
            threads.emplace_back(use, node);
            threads.emplace_back(leave, counted, i);
        }
        std::weak_ptr<Node> weak = node;
        node.reset();
        if (auto again = weak.lock())
            use(again);
        auto future = std::async(std::launch::async, give, 2 * round);
        auto failing = std::async(std::launch::async, give, 2 * round + 1);
        total += future.get();
        try {
            failing.get();
        } catch (const std::runtime_error &error) {
            total += error.what()[0];
        }
    }
    for (auto &thread : threads)
        thread.join();
    return 0;
}
