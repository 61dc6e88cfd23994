// Races in blocks of memory, one after the other, each by two threads: which block a report names, and where the program got it.
#include <cstdlib>
#include <memory>
#include <thread>
#include <vector>

struct Job { long first, second; int done; };

template <typename Use> static void twice(Use use)
{
    std::thread(use).join();
    std::thread(use).join();
}

static char *get(size_t size)
{
    return static_cast<char *>(malloc(size)); // @got
}

static char *use_block(size_t size, size_t from)
{
    char *block = get(size);
    twice([=] { block[from]++; }); // RACE 100 of 1000 got
    return block;
}

int main()
{
    auto job = std::make_unique<Job>(); // @job
    Job *todo = job.get();
    twice([=] { todo->done++; }); // RACE 16 of 24 job

    std::vector<int> row(100); // @row
    int *numbers = row.data();
    twice([=] { numbers[50]++; }); // RACE 200 of 400 row

    // Memory that was another block's.
    free(use_block(1000, 100));
    char *front = get(8), *again = static_cast<char *>(malloc(500)); // @again
    twice([=] { again[400]++; }); // RACE 400 of 500 again
    free(again);
    free(front);

    char *large = static_cast<char *>(calloc(100, 100000)); // @large
    twice([=] { large[9999999]++; }); // RACE 9999999 of 10000000 large

    // A block that gets smaller, and then larger.
    char *shrunk = static_cast<char *>(realloc(malloc(5000), 64)); // @shrunk
    twice([=] { shrunk[60]++; }); // RACE 60 of 64 shrunk
    char *grown = static_cast<char *>(realloc(shrunk, 3000)); // @grown
    twice([=] { grown[2000]++; }); // RACE 2000 of 3000 grown

    // Memory that was given back is no block's.
    static char *volatile gone = get(2000);
    free(gone);
    twice([] { gone[1000]++; }); // RACE

    void *aligned = nullptr;
    if (posix_memalign(&aligned, 4096, 40) != 0) // @aligned
        return 99;
    twice([&] { static_cast<char *>(aligned)[20]++; }); // RACE 20 of 40 aligned
    free(aligned);
    free(grown);
    free(large);
    return 0;
}
