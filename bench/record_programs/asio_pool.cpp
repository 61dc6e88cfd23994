// A pool of asio: four threads run 400 tasks. Each task fills a list and hands it to a second task, which adds it up. A strand adds up the sums.
#include <asio.hpp>

#include <cstdio>
#include <memory>
#include <numeric>
#include <vector>

static long lists_filled; // counted by every task, protected by nobody

int main()
{
    asio::thread_pool pool(4);
    auto strand = asio::make_strand(pool);
    long total = 0; // changed only in the strand, which runs one task at a time
    for (int task = 0; task < 400; task++)
        asio::post(pool, [&pool, &strand, &total, task] {
            auto numbers = std::make_shared<std::vector<long>>(100);
            std::iota(numbers->begin(), numbers->end(), task);
#ifndef NO_RACE
            lists_filled++; // RACE
#endif
            asio::post(pool, [&strand, &total, numbers] {
                long sum = std::accumulate(numbers->begin(), numbers->end(), 0L);
                asio::post(strand, [&total, sum] { total += sum; });
            });
        });
    pool.join();
    std::printf("total %ld, lists filled %ld of 400\n", total, lists_filled);
    return total == 9960000 ? 0 : 1;
}
