// A pool of threads with a queue under a lock, and two statistics that no lock protects.
#include <condition_variable>
#include <cstdio>
#include <deque>
#include <functional>
#include <mutex>
#include <thread>
#include <vector>

class Pool {
public:
    explicit Pool(int count)
    {
        for (int i = 0; i < count; i++)
            threads_.emplace_back([this] { work(); });
    }

    ~Pool()
    {
        {
            std::lock_guard<std::mutex> guard(queue_lock_);
            is_ending_ = true;
        }
        has_work_.notify_all();
        for (auto &thread : threads_)
            thread.join();
    }

    void add(std::function<long()> task)
    {
        std::lock_guard<std::mutex> guard(queue_lock_);
        tasks_.push_back(std::move(task));
        has_work_.notify_one();
    }

    long finished = 0, busy = 0;

private:
    void work()
    {
        for (;;) {
            std::function<long()> task;
            {
                std::unique_lock<std::mutex> guard(queue_lock_);
                has_work_.wait(guard, [this] { return is_ending_ || !tasks_.empty(); });
                if (tasks_.empty())
                    return;
                task = std::move(tasks_.front());
                tasks_.pop_front();
            }
            busy += task(); // RACE busy
            finished++;     // RACE finished
        }
    }

    std::mutex queue_lock_;
    std::condition_variable has_work_;
    std::deque<std::function<long()>> tasks_;
    bool is_ending_ = false;
    std::vector<std::thread> threads_;
};

int main()
{
    Pool pool(3);
    for (int i = 0; i < 200; i++)
        pool.add([i] {
            long sum = 0;
            for (int k = 0; k < 50; k++)
                sum += k * i;
            return sum;
        });
    std::puts("added");
}
