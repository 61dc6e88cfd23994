// Exceptions that threads pass on by std::exception_ptr. Whoever lets one go last destroys it. One that stays in its thread has no line.
#include "../meet.h"

#include <condition_variable>
#include <exception>
#include <future>
#include <mutex>
#include <stdexcept>
#include <string>
#include <thread>
#include <utility>
#include <vector>

static const char message[] = "a message that has no room in the string itself";

class Failure : public std::exception {
    std::string text;
    std::vector<int> words = std::vector<int>(10, 1);

public:
    explicit Failure(const char *text) : text(text) {}
    const char *what() const noexcept override { return text.c_str(); }
    int word(int at) const { return words[at]; }
};

static std::mutex lock;
static std::condition_variable changed;
static std::exception_ptr failed;
static int found;

// The thread holds the exception still when another one has it.
template <class Thrown> static void fail()
{
    try {
        throw Thrown(message);
    } catch (...) {
        std::lock_guard<std::mutex> guard(lock);
        failed = std::current_exception();
        changed.notify_one();
    }
}

static std::exception_ptr take()
{
    std::unique_lock<std::mutex> guard(lock);
    changed.wait(guard, [] { return failed != nullptr; });
    return std::exchange(failed, nullptr);
}

static void use(const std::exception_ptr &mine)
{
    try {
        std::rethrow_exception(mine);
    } catch (const Failure &failure) {
        found += failure.word(3) + failure.what()[2];
    } catch (const std::exception &failure) {
        found += failure.what()[2];
    }
}

static void pass_on()
{
    for (int i = 0; i < 4; i++) {
        std::thread thread(i % 2 ? fail<Failure> : fail<std::runtime_error>);
        use(take());
        thread.join();
    }
}

// Several threads use one, each as long as it likes.
static void share()
{
    std::vector<std::thread> threads;
    {
        std::exception_ptr one = std::make_exception_ptr(Failure(message));
        for (int i = 0; i < 3; i++)
            threads.emplace_back([one] {
                std::exception_ptr copy = one;
                std::string text;
                try {
                    std::rethrow_exception(copy);
                } catch (const Failure &failure) {
                    text = failure.what();
                }
            });
    }
    for (auto &thread : threads)
        thread.join();
}

static void promise()
{
    std::promise<int> given;
    auto result = given.get_future();
    std::thread thread([&] {
        try {
            throw Failure(message);
        } catch (...) {
            given.set_exception(std::current_exception());
        }
    });
    try {
        found += result.get();
    } catch (const Failure &failure) {
        found += failure.word(1);
    }
    thread.join();
}

static void stay(int number)
{
    for (int i = 0; i < 5; i++)
        try {
            throw number;
        } catch (int caught) {
            number = caught + 1;
        }
}

int main()
{
    for (int i = 0; i < 3; i++) {
        pass_on();
        share();
        promise();
    }
    run_threads(3, stay);
    return 0;
}
