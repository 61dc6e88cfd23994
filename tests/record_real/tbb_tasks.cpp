// oneTBB, whose library isn't instrumented: a loop over a map, a queue, a vector and a sum under a spin lock.
#include <tbb/concurrent_hash_map.h>
#include <tbb/concurrent_queue.h>
#include <tbb/concurrent_vector.h>
#include <tbb/global_control.h>
#include <tbb/parallel_for.h>
#include <tbb/spin_mutex.h>

#include <cstdio>
#include <string>

int main() {
    tbb::global_control limit(tbb::global_control::max_allowed_parallelism, 4);
    tbb::concurrent_hash_map<int, std::string> map;
    tbb::concurrent_queue<int> queue;
    tbb::concurrent_vector<int> numbers;
    tbb::spin_mutex lock;
    long sum = 0;
    tbb::parallel_for(0, 3000, [&](int number) {
        {
            tbb::concurrent_hash_map<int, std::string>::accessor place;
            map.insert(place, number % 97);
            place->second += 'x';
        }
        queue.push(number);
        int taken;
        if (queue.try_pop(taken)) {
            tbb::spin_mutex::scoped_lock held(lock);
            sum += taken;
        }
        numbers.push_back(number);
    });
    int left;
    while (queue.try_pop(left))
        sum += left;
    std::printf("%zu %ld %zu\n", map.size(), sum, numbers.size());
}
