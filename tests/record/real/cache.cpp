// A cache that is made at its first use, and parts of it with a lock each. The pointer is read without the lock, and `drop` takes the lock of
// another part than it changes.
#include <cstdio>
#include <mutex>
#include <thread>
#include <vector>

struct Shard {
    std::mutex lock;
    long hits[8] = {};
};

class Cache {
public:
    static Cache &get()
    {
        if (!the_cache) { // RACE pointer
            std::lock_guard<std::mutex> guard(create_lock);
            if (!the_cache)
                the_cache = new Cache; // RACE pointer
        }
        return *the_cache;
    }

    void use(unsigned key)
    {
        Shard &shard = shards_[key % 4];
        std::lock_guard<std::mutex> guard(shard.lock);
        shard.hits[key % 8]++; // RACE hits
    }

    void drop(unsigned key)
    {
        std::lock_guard<std::mutex> guard(shards_[(key + 1) % 4].lock);
        shards_[key % 4].hits[key % 8] = 0; // RACE hits
    }

private:
    static Cache *the_cache;
    static std::mutex create_lock;
    Shard shards_[4];
};

Cache *Cache::the_cache;
std::mutex Cache::create_lock;

int main()
{
    std::vector<std::thread> threads;
    for (unsigned t = 0; t < 3; t++)
        threads.emplace_back([t] {
            for (unsigned i = 0; i < 400; i++) {
                if (i % 50 == 49)
                    Cache::get().drop(i + t);
                else
                    Cache::get().use(i * 7 + t);
            }
        });
    for (auto &thread : threads)
        thread.join();
    std::puts("used");
}
