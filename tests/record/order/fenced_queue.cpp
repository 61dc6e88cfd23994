// Two well-known ways to share without locks, made of fences and relaxed operations: a queue from which other threads steal (Chase and Lev), and
// pointers that readers announce before they use them (hazard pointers). Whoever gets a task, or replaces it, destroys it.
#include "../meet.h"

#include <atomic>
#include <memory>
#include <thread>

#if defined(__GNUC__) && !defined(__clang__)
#pragma GCC diagnostic ignored "-Wtsan"
#endif

static const int tasks = 60, rounds = 15;
static const auto relaxed = std::memory_order_relaxed, acquire = std::memory_order_acquire, seq_cst = std::memory_order_seq_cst;

struct Task {
    int words[6] = {1, 2, 3, 4, 5, 6};
};

static std::atomic<long> sum{0};
static std::atomic<int> done{0};

static void finish(Task *task)
{
    for (int &word : task->words)
        sum.fetch_add(word++, relaxed);
    delete task;
    done.fetch_add(1, relaxed);
}

// ---- The queue: its owner puts and takes at the bottom, others steal at the top ----

class Queue {
    std::atomic<long> top{0}, bottom{0};
    std::atomic<Task *> slots[tasks];

public:
    void put(Task *task)
    {
        long at = bottom.load(relaxed);
        slots[at % tasks].store(task, relaxed);
        std::atomic_thread_fence(std::memory_order_release);
        bottom.store(at + 1, relaxed);
    }

    Task *take()
    {
        long at = bottom.load(relaxed) - 1;
        bottom.store(at, relaxed);
        std::atomic_thread_fence(seq_cst);
        long first = top.load(relaxed);
        Task *task = first <= at ? slots[at % tasks].load(relaxed) : nullptr;
        if (first < at)
            return task;
        if (first == at && !top.compare_exchange_strong(first, first + 1, seq_cst, relaxed))
            task = nullptr;
        bottom.store(at + 1, relaxed);
        return task;
    }

    Task *steal()
    {
        long first = top.load(acquire);
        std::atomic_thread_fence(seq_cst);
        if (first >= bottom.load(acquire))
            return nullptr;
        Task *task = slots[first % tasks].load(relaxed);
        return top.compare_exchange_strong(first, first + 1, seq_cst, relaxed) ? task : nullptr;
    }
};

static Queue queue;

static void own()
{
    for (int i = 0; i < tasks; i++) {
        queue.put(new Task);
        if (i % 3 == 0)
            if (Task *task = queue.take())
                finish(task);
    }
    while (Task *task = queue.take())
        finish(task);
}

static void rob()
{
    while (done.load(relaxed) < tasks)
        if (Task *task = queue.steal())
            finish(task);
        else
            std::this_thread::yield();
}

// ---- The announced pointers ----

static std::atomic<Task *> current{nullptr}, announced[2];

static void read_current(int number)
{
    for (int i = 0; i < rounds; i++) {
        Task *task;
        do {
            task = current.load(relaxed);
            announced[number].store(task, relaxed);
            std::atomic_thread_fence(seq_cst);
        } while (task != current.load(acquire));
        if (task)
            sum.fetch_add(task->words[2], relaxed);
        std::atomic_thread_fence(std::memory_order_release);
        announced[number].store(nullptr, relaxed);
    }
}

static void replace_current()
{
    for (int i = 0; i < rounds; i++) {
        std::unique_ptr<Task> old(current.exchange(new Task, std::memory_order_acq_rel));
        std::atomic_thread_fence(seq_cst);
        for (auto &other : announced)
            while (old && other.load(relaxed) == old.get())
                std::this_thread::yield();
        std::atomic_thread_fence(acquire);
    }
}

static void run(int number)
{
    number == 0 ? own() : rob();
    number == 0 ? replace_current() : read_current(number - 1);
}

int main()
{
    run_threads(3, run);
    delete current.load();
    return done.load() != tasks;
}
