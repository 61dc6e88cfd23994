// A program that has its own `new` and `delete`, with memory that no allocator knows. By the C++ standard all other forms end in them.
#include <cstddef>
#include <cstdio>
#include <cstdlib>
#include <new>

static char room[1 << 16] __attribute__((aligned(64)));
static std::size_t used;
static int taken, given;

void *operator new(std::size_t bytes)
{
    taken++;
    used += (bytes + 63) / 64 * 64;
    return used <= sizeof room ? room + used - (bytes + 63) / 64 * 64 : nullptr;
}

void operator delete(void *block) noexcept
{
    if (block < room || block >= room + sizeof room)
        std::abort();
    given++;
}

void operator delete(void *block, std::size_t) noexcept { operator delete(block); }

int main()
{
    ::operator delete(::operator new(100));
    ::operator delete[](::operator new[](100));
    ::operator delete(::operator new(100, std::nothrow), std::nothrow);
    ::operator delete[](::operator new[](100, std::nothrow), std::nothrow);
    std::printf("taken %d, given back %d\n", taken, given);
}
