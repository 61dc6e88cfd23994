// Right: buffers go from a producer to a consumer through a queue, and an answer back through a promise. No lock is held while a buffer is filled
// or read.
#include <condition_variable>
#include <cstdio>
#include <future>
#include <memory>
#include <mutex>
#include <queue>
#include <thread>
#include <vector>

struct Request {
    std::vector<int> words;
    std::promise<long> answer;
};

static std::mutex lock;
static std::condition_variable changed;
static std::queue<std::unique_ptr<Request>> requests;

static void consume(int count)
{
    while (count--) {
        std::unique_lock<std::mutex> guard(lock);
        changed.wait(guard, [] { return !requests.empty(); });
        auto request = std::move(requests.front());
        requests.pop();
        guard.unlock();
        long sum = 0;
        for (int &word : request->words)
            sum += word++;
        request->answer.set_value(sum);
    }
}

int main()
{
    long total = 0;
    std::thread consumer(consume, 50);
    for (int i = 0; i < 50; i++) {
        auto request = std::make_unique<Request>();
        request->words.assign(8, i);
        auto answer = request->answer.get_future();
        {
            std::lock_guard<std::mutex> guard(lock);
            requests.push(std::move(request));
        }
        changed.notify_one();
        total += answer.get();
    }
    consumer.join();
    std::printf("%ld\n", total);
}
