// Objects whose owner destroys them when nobody uses them any more: counts of several kinds, containers, tasks, threads' and the program's ends.
#include "../meet.h"

#include <atomic>
#include <condition_variable>
#include <deque>
#include <functional>
#include <future>
#include <map>
#include <memory>
#include <mutex>
#include <string>
#include <thread>
#include <utility>
#include <vector>

#if defined(__GNUC__) && !defined(__clang__)
#pragma GCC diagnostic ignored "-Wtsan"
#endif

static const int count = 4;

// ---- A counted object: who lets it go last destroys it ----

struct Counted {
    std::atomic<int> users{0};
    std::vector<int> words = std::vector<int>(12, 1);
    int used[count] = {};
};

// As Boost's `intrusive_ptr` and others have it: only the last one needs to know what the others did.
static void release_by_fence(Counted *counted)
{
    if (counted->users.fetch_sub(1, std::memory_order_release) == 1) {
        std::atomic_thread_fence(std::memory_order_acquire);
        delete counted;
    }
}

static void release_by_two_fences(Counted *counted)
{
    std::atomic_thread_fence(std::memory_order_release);
    if (counted->users.fetch_sub(1, std::memory_order_relaxed) == 1) {
        std::atomic_thread_fence(std::memory_order_acquire);
        delete counted;
    }
}

// The last one looks at the count again.
static void release_by_load(Counted *counted)
{
    if (counted->users.fetch_sub(1, std::memory_order_release) == 1) {
        (void)counted->users.load(std::memory_order_acquire);
        delete counted;
    }
}

// Whoever is alone needs no count.
static void release_if_alone(Counted *counted)
{
    if (counted->users.load(std::memory_order_acquire) == 1 || counted->users.fetch_sub(1, std::memory_order_acq_rel) == 1)
        delete counted;
}

static void (*const releases[])(Counted *) = {release_by_fence, release_by_two_fences, release_by_load, release_if_alone};

// A copy of a counted pointer, which may be taken and let go by any thread.
class Pointer {
    Counted *counted;
    int how;

public:
    explicit Pointer(int how) : counted(new Counted), how(how) { counted->users = 1; }
    Pointer(const Pointer &other) : counted(other.counted), how(other.how) { counted->users.fetch_add(1, std::memory_order_relaxed); }
    Pointer &operator=(const Pointer &) = delete;
    ~Pointer() { releases[how](counted); }
    void use(int number) const { counted->used[number] += counted->words[number]; }
};

static void use_copies(Pointer mine, int number)
{
    for (int i = 0; i < 3; i++) {
        Pointer copy = mine;
        copy.use(number);
    }
}

static void share(int how)
{
    std::vector<std::thread> threads;
    {
        Pointer first(how);
        for (int i = 0; i < count; i++)
            threads.emplace_back(use_copies, first, i);
    }
    for (auto &thread : threads)
        thread.join();
}

// ---- Messages: who gets one destroys it ----

struct Message {
    std::string text = "a text that has no room in the string itself";
    std::map<int, std::string> parts{{1, "one"}, {2, "another text that has no room in the string itself"}};
};

class Queue {
    std::mutex lock;
    std::condition_variable filled;
    std::deque<std::unique_ptr<Message>> messages;

public:
    void put(std::unique_ptr<Message> message)
    {
        {
            std::lock_guard<std::mutex> guard(lock);
            messages.push_back(std::move(message));
        }
        filled.notify_one();
    }

    std::unique_ptr<Message> get()
    {
        std::unique_lock<std::mutex> guard(lock);
        filled.wait(guard, [this] { return !messages.empty(); });
        auto message = std::move(messages.front());
        messages.pop_front();
        return message;
    }
};

static void pass_messages()
{
    auto queue = std::make_shared<Queue>();
    auto reader = [queue] {
        for (int i = 0; i < 6; i++)
            queue->get()->parts[1] += "more";
    };
    auto writer = [queue] {
        for (int i = 0; i < 6; i++)
            queue->put(std::make_unique<Message>());
    };
    std::thread threads[] = {std::thread(reader), std::thread(writer), std::thread(reader), std::thread(writer)};
    queue.reset();
    for (auto &thread : threads)
        thread.join();
}

// A slot that an atomic exchange empties, and a list whose head is changed by compare and exchange and taken as a whole.
struct Node {
    std::unique_ptr<Node> next;
    std::vector<int> words = std::vector<int>(8, 3);
};

static std::atomic<Message *> slot{nullptr};
static std::atomic<Node *> head{nullptr};

static void push()
{
    auto node = std::make_unique<Node>();
    Node *raw = node.get(), *before = head.load(std::memory_order_relaxed);
    do {
        (void)node->next.release();
        node->next.reset(before);
    } while (!head.compare_exchange_weak(before, raw, std::memory_order_release, std::memory_order_relaxed));
    (void)node.release();
}

static void use_slots(int number)
{
    for (int i = 0; i < 5; i++) {
        delete slot.exchange(new Message, std::memory_order_acq_rel);
        if (number % 2)
            push();
        else if (std::unique_ptr<Node> all{head.exchange(nullptr, std::memory_order_acquire)})
            all->words[1]++;
    }
}

// ---- Tasks, futures and what threads own ----

struct Log {
    std::vector<std::string> lines;
    ~Log() { lines.clear(); }
};
static thread_local Log own_log;
static std::map<int, std::string> at_end;
static std::mutex at_end_lock;

static std::vector<std::string> work(int number)
{
    own_log.lines.push_back("a line that has no room in the string itself");
    std::lock_guard<std::mutex> guard(at_end_lock);
    at_end[number] += "a result that has no room in the string itself";
    return own_log.lines;
}

static const std::string &made_once()
{
    static const std::string made = "a string that has no room in the string itself";
    return made;
}

static void run_tasks()
{
    std::vector<std::future<std::vector<std::string>>> results;
    std::vector<std::thread> threads;
    for (int i = 0; i < count; i++) {
        std::packaged_task<std::vector<std::string>(int)> task(work);
        results.push_back(task.get_future());
        threads.emplace_back(std::move(task), i);
        results.push_back(std::async(std::launch::async, [i, text = made_once()] { return std::vector<std::string>{text, std::to_string(i)}; }));
    }
    for (auto &result : results)
        result.get()[0] += "more";
    for (auto &thread : threads)
        thread.join();
}

static void run(int number)
{
    use_slots(number);
}

int main()
{
    for (int how = 0; how < 4; how++)
        share(how);
    pass_messages();
    run_threads(count, run);
    delete slot.exchange(nullptr);
    delete head.exchange(nullptr);
    run_tasks();
    return 0;
}
