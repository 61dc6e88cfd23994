// An exception whose last holder has begun to let it go before another one looks at it. That one is done with it when it is destroyed.
#include <exception>
#include <future>
#include <thread>
#include <vector>

// late.c has these.
extern "C" __attribute__((weak)) void be_late();
extern "C" __attribute__((weak)) void wait_for_late();
extern "C" __attribute__((weak)) void let_late_go();

struct Failure : std::exception {
    std::vector<int> numbers = std::vector<int>(2, 1);
};

static std::promise<std::exception_ptr> given;

static void fail()
{
    try {
        throw Failure();
    } catch (...) {
        given.set_value(std::current_exception());
        be_late();
    }
}

static int look(std::exception_ptr failure)
{
    try {
        std::rethrow_exception(failure);
    } catch (const Failure &caught) {
        return caught.numbers[1];
    }
}

int main()
{
    std::thread thread(fail);
    auto mine = given.get_future().get();
    wait_for_late();
    int found = look(std::move(mine));
    let_late_go();
    thread.join();
    return found == 1 ? 0 : 1;
}
