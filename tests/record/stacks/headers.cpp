/* Calls that are made in headers of the system have no nodes: a thread's function, a comparison and what a function object calls.
 *
 * STACK filled
 * STACK leaf runs
 * STACK leaf compares sorts main-sorts
 * STACK leaf holds calls main-calls
 */
#include "marks.h"

#include <algorithm>
#include <functional>
#include <thread>
#include <vector>

APART static void leaf()
{
    shared++; /* @leaf */
}

APART static void run()
{
    leaf(); /* @runs */
    __asm__ volatile("");
}

APART static bool compare(int one, int other)
{
    leaf(); /* @compares */
    __asm__ volatile("");
    return one < other;
}

APART static void hold()
{
    leaf(); /* @holds */
    __asm__ volatile("");
}

APART static void sort_all(std::vector<int> &numbers)
{
    std::sort(numbers.begin(), numbers.end(), compare); /* @sorts */
    __asm__ volatile("");
}

APART static void call(const std::function<void()> &held)
{
    held(); /* @calls */
    __asm__ volatile("");
}

int main()
{
    std::thread thread(run);
    thread.join();
    std::vector<int> numbers(100);
    for (int i = 0; i < 100; i++)
        numbers[i] = i * 37 % 100; /* @filled */
    sort_all(numbers); /* @main-sorts */
    call(hold); /* @main-calls */
    return 0;
}
