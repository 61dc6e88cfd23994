// Two threads change one balance. Each of them takes a mutex, but not the same one.
#include <cstdio>
#include <mutex>
#include <thread>
#include <unistd.h>

static std::mutex deposits, refunds;
static int balance; // should be protected by deposits

static void deposit(int amount)
{
    std::lock_guard<std::mutex> held(deposits);
    balance += amount;
}

static void refund(int amount)
{
    std::lock_guard<std::mutex> held(refunds);
    balance -= amount;
}

static void work(void (*change)(int), int amount)
{
    for (int day = 0; day < 2; day++) {
        change(amount);
        usleep(10000);
    }
}

int main()
{
    std::thread clerk(work, deposit, 100), agent(work, refund, 10);
    clerk.join();
    agent.join();
    std::printf("balance %d\n", balance);
}
