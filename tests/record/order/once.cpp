// What is done once: by pthread_once, by std::call_once, by a static variable of a function. What a future brings, and std::thread.
#include "../meet.h"

#include <future>
#include <mutex>
#include <thread>

static int by_pthread, by_call, by_future, tries;
static pthread_once_t pthread_flag = PTHREAD_ONCE_INIT;
static std::once_flag call_flag, thrown_flag;
static int attempts;
struct made {
    int word;
    made() : word(by_call)
    {
        if (attempts++ == 0)
            throw 1;
    }
};

static void do_pthread() { by_pthread++; }
static void do_call()
{
    pthread_once(&pthread_flag, do_pthread);
    by_call++;
}

// What ends by an exception was not done, and the next thread does it.
static void do_second_time()
{
    if (tries++ == 0)
        throw 1;
}

static void try_twice()
{
    try {
        std::call_once(thrown_flag, do_second_time);
    } catch (int) {
        std::call_once(thrown_flag, do_second_time);
    }
}

static const made &get_made()
{
    static made only;
    return only;
}

static int try_to_get()
{
    try {
        return get_made().word;
    } catch (int) {
        return get_made().word;
    }
}

static int use()
{
    pthread_once(&pthread_flag, do_pthread);
    int found = by_pthread;
    std::call_once(call_flag, do_call);
    found += by_call;
    try_twice();
    found += tries - 2;
    return found + try_to_get();
}

static int sum[2];
int main()
{
    std::thread one([] { sum[0] = use(); }), other([] { sum[1] = use(); });
    one.join();
    other.join();
    std::promise<int> promise;
    std::thread third([&] { by_future = 1; promise.set_value(sum[0]); });
    int found = promise.get_future().get();
    by_future++;
    third.join();
    return found == 3 && sum[1] == 3 ? 0 : 1;
}
