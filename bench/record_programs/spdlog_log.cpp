// An asynchronous log of spdlog: four threads log 200 lines each and count them, and two threads of the library write them.
#include <spdlog/async.h>
#include <spdlog/sinks/basic_file_sink.h>
#include <spdlog/spdlog.h>

#include <thread>
#include <vector>

static long written; // raised by every thread, protected by nobody

int main()
{
    spdlog::init_thread_pool(1024, 2);
    auto logger = spdlog::basic_logger_mt<spdlog::async_factory>("log", "log.txt", true);
    std::vector<std::thread> threads;
    for (int t = 0; t < 4; t++)
        threads.emplace_back([&, t] {
            for (int i = 0; i < 200; i++) {
                logger->info("thread {} line {}", t, i);
#ifndef NO_RACE
                written++; // RACE
#endif
            }
        });
    for (auto &thread : threads)
        thread.join();
    spdlog::shutdown();
}
