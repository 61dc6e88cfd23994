// Each operator `delete` gives memory back, and each `new` may take it again: another thread writes there then, without a lock.
#include <cstddef>
#include <cstdio>
#include <new>
#include <thread>

void operator delete(void *, std::size_t) noexcept;
void operator delete[](void *, std::size_t) noexcept;
void operator delete(void *, std::size_t, std::align_val_t) noexcept;
void operator delete[](void *, std::size_t, std::align_val_t) noexcept;

static const std::size_t bytes = 2000;
static const auto line = std::align_val_t(64);
static int same, made;

template <class Body> static void in_thread(Body body)
{
    std::thread thread(body);
    thread.join();
}

static void fill(void *block)
{
    for (std::size_t at = 0; at < bytes / sizeof(int); at++)
        static_cast<int *>(block)[at] = 1;
}

// The block that is taken after it stays, so that the one which is given back is not joined with what is free behind it.
template <class Take, class Give> static void hand_on(Take take, Give give)
{
    void *block = take(), *behind = take();
    in_thread([=] { fill(block); give(block); });
    void *next = take();
    in_thread([=] { fill(next); give(next); });
    give(behind);
    same += next == block;
    made++;
}

int main()
{
    auto take = [] { return ::operator new(bytes); };
    auto take_array = [] { return ::operator new[](bytes); };
    auto take_aligned = [] { return ::operator new(bytes, line); };
    auto take_aligned_array = [] { return ::operator new[](bytes, line); };
    hand_on(take, [](void *block) { ::operator delete(block); });
    hand_on(take, [](void *block) { ::operator delete(block, bytes); });
    hand_on([] { return ::operator new(bytes, std::nothrow); }, [](void *block) { ::operator delete(block, std::nothrow); });
    hand_on(take_array, [](void *block) { ::operator delete[](block); });
    hand_on(take_array, [](void *block) { ::operator delete[](block, bytes); });
    hand_on([] { return ::operator new[](bytes, std::nothrow); }, [](void *block) { ::operator delete[](block, std::nothrow); });
    hand_on(take_aligned, [](void *block) { ::operator delete(block, line); });
    hand_on(take_aligned, [](void *block) { ::operator delete(block, bytes, line); });
    hand_on([] { return ::operator new(bytes, line, std::nothrow); }, [](void *block) { ::operator delete(block, line, std::nothrow); });
    hand_on(take_aligned_array, [](void *block) { ::operator delete[](block, line); });
    hand_on(take_aligned_array, [](void *block) { ::operator delete[](block, bytes, line); });
    hand_on([] { return ::operator new[](bytes, line, std::nothrow); }, [](void *block) { ::operator delete[](block, line, std::nothrow); });
    ::operator delete(nullptr);
    std::printf("%d operators, %s the same block\n", made, same ? "some with" : "none with");
}
