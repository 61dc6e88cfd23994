// A table that is read under a shared lock. `hits` is counted under that lock too, which several threads may hold.
#include <eraser_detector.hpp>
#include <iostream>
#include <shared_mutex>
#include <thread>

static std::shared_mutex mutex;
static int table[4], hits;

static void look(int at)
{
    eraser::shared_lock_guard guard(mutex);
    if (eraser::read(table[at]) != 0)
        eraser::write(hits)++;
}

static void fill()
{
    eraser::lock_guard guard(mutex);
    for (int &entry : table)
        eraser::write(entry) = 1;
}

int main()
{
    eraser::session session([](const eraser::race &race) {
        std::cout << (race.word == &hits ? "hits" : "table") << ": thread " << race.thread << (race.writes ? " writes" : " reads") << ", holding "
                  << (race.lock_count && race.locks[0] == &mutex && !race.lock_writes[0] ? "the mutex to read" : "something else") << "\n";
    });
    std::thread(fill).join();
    std::thread(look, 0).join();
    std::thread(look, 1).join();
}
