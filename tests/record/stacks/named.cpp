/* Names of functions, and blocks of memory. FUNCTION names the function of a line with a mark, with its scopes. BLOCK says how many bytes a block has, and
 * the marks of the call that got it and of the calls around that. GIVEN says the same of one that a call gives back.
 *
 * FUNCTION hidden hidden
 * FUNCTION take pool::Pool::take
 * FUNCTION end pool::Pool::~Pool
 * FUNCTION add pool::Pool::operator+=
 * FUNCTION ask pool::Pool::operator_bool
 * FUNCTION put pool::Pool::Box::put
 * FUNCTION twice pool::twice
 * FUNCTION deep deep
 * FUNCTION run main::Worker::run
 * FUNCTION later main::{lambda}
 * FUNCTION inner main::{lambda}::{lambda}
 * FUNCTION generic main::{lambda}
 * FUNCTION shift pool::operator<<
 * FUNCTION less pool::operator<
 * FUNCTION call pool::Pool::operator()
 * FUNCTION arrow pool::Pool::operator->
 * FUNCTION main main
 *
 * FUNCTION plain get_blocks
 * BLOCK 40 plain main
 * FUNCTION zeroed get_blocks
 * BLOCK 48 zeroed main
 * FUNCTION first get_blocks
 * BLOCK 16 first main
 * FUNCTION moved get_blocks
 * BLOCK 4000 moved main
 * GIVEN 24 moved main
 * FUNCTION small get_blocks
 * BLOCK 20 small main
 * FUNCTION grown get_blocks
 * BLOCK 24 grown main
 * FUNCTION listed get_blocks
 * BLOCK 30 listed main
 * FUNCTION paged get_blocks
 * BLOCK 60 paged main
 * FUNCTION placed get_blocks
 * BLOCK 72 placed main
 * FUNCTION aligned get_blocks
 * BLOCK 128 aligned main
 * FUNCTION posix get_blocks
 * BLOCK 192 posix main
 * FUNCTION pages get_blocks
 * BLOCK 12288 pages main
 * FUNCTION new get_blocks
 * BLOCK 20 new main
 * FUNCTION nothrow get_blocks
 * BLOCK 20 nothrow main
 * FUNCTION longest get_blocks
 * BLOCK 4194304 longest main
 * FUNCTION longer get_blocks
 * BLOCK 4194305 longer main
 * FUNCTION largest get_blocks
 * BLOCK 5368709120 largest main
 * FUNCTION array get_blocks
 * BLOCK 28 array main
 * FUNCTION wide get_blocks
 * BLOCK 256 wide main
 * FUNCTION unique get_blocks
 * BLOCK 20 unique main
 * FUNCTION vector get_blocks
 * BLOCK 36 vector main
 * FUNCTION string get_blocks
 * BLOCK 71 string main
 */
#include <malloc.h>
#include <memory>
#include <new>
#include <string>
#include <sys/mman.h>
#include <vector>

#include "marks.h"

namespace {
APART void hidden()
{
    shared++; /* @hidden */
}
} // namespace

namespace pool {
struct Pool {
    int taken = 0;
    template <class T> struct Box {
        T value;
        APART void put(T now);
    };
    APART void take(int count)
    {
        taken += count; /* @take */
    }
    APART ~Pool();
    APART Pool &operator+=(int count)
    {
        taken += count; /* @add */
        return *this;
    }
    APART explicit operator bool() const
    {
        return taken; /* @ask */
    }
    APART Pool *operator->()
    {
        taken++; /* @arrow */
        return this;
    }
    APART void operator()(int count)
    {
        taken += count; /* @call */
    }
};

Pool::~Pool()
{
    shared += taken; /* @end */
}

template <class T> void Pool::Box<T>::put(T now)
{
    value = now; /* @put */
}

template <class T> APART T twice(T value)
{
    shared++; /* @twice */
    return value + value;
}
} // namespace pool

namespace pool {
APART Pool &operator<<(Pool &pool, int count)
{
    pool.taken += count; /* @shift */
    return pool;
}

APART bool operator<(const Pool &pool, int count)
{
    return pool.taken < count; /* @less */
}
} // namespace pool

INLINED void deep()
{
    shared++; /* @deep */
}

struct Five {
    int all[5];
};
struct alignas(64) Wide {
    int all[64];
};

APART static void use(void *block)
{
    static_cast<volatile char *>(block)[0] = 1;
}

APART static void get_blocks()
{
    void *block;
    use(malloc(40)); /* @plain */
    use(calloc(6, 8)); /* @zeroed */
    use(block = realloc(nullptr, 16)); /* @first */
    use(realloc(block, 4000)); /* @moved */
    use(block = malloc(20)); /* @small */
    use(realloc(block, 24)); /* @grown */
    use(reallocarray(nullptr, 10, 3)); /* @listed */
    use(pvalloc(60)); /* @paged */
    use(memalign(16, 72)); /* @placed */
    use(aligned_alloc(64, 128)); /* @aligned */
    if (posix_memalign(&block, 64, 192) == 0) /* @posix */
        use(block);
    use(mmap(nullptr, 12000, PROT_READ | PROT_WRITE, MAP_PRIVATE | MAP_ANONYMOUS, -1, 0)); /* @pages */
    use(new Five()); /* @new */
    use(new (std::nothrow) Five()); /* @nothrow */
    use(malloc(4194304)); /* @longest */
    use(malloc(4194305)); /* @longer */
    mmap(nullptr, 5368709120, PROT_NONE, MAP_PRIVATE | MAP_ANONYMOUS | MAP_NORESERVE, -1, 0); /* @largest */
    use(new int[7]()); /* @array */
    use(new Wide()); /* @wide */
    auto unique = std::make_unique<Five>(); /* @unique */
    use(unique.get());
    std::vector<int> vector(9); /* @vector */
    use(vector.data());
    std::string string(70, 'a'); /* @string */
    use(&string[0]);
}

int main()
{
    struct Worker {
        APART void run()
        {
            shared++; /* @run */
        }
    } worker;
    auto later = [](int count) APART {
        shared += count; /* @later */
        auto inner = []() APART {
            shared++; /* @inner */
        };
        inner();
    };
    auto generic = [](auto count) APART {
        shared += count; /* @generic */
    };
    pool::Pool pool;
    pool::Pool::Box<double> box;
    hidden();
    deep();
    worker.run();
    later(2);
    generic(2);
    pool << 2;
    pool(2);
    pool->taken += pool < 2;
    pool.take(3);
    pool += 1;
    box.put(pool ? 1.5 : 2.5);
    get_blocks(); /* @main */
    return pool::twice(shared) < 0;
}
