// Memory that changes hands: by free and malloc, realloc, new and delete, munmap and mmap, and as a stack. The next thread gets the same
// addresses and writes there without a lock.
#include "meet.h"

#include <cstdint>
#include <sys/mman.h>
#include <thread>

static void fill(char *block, size_t bytes)
{
    for (size_t i = 0; i < bytes; i += 4) // one byte of each word
        block[i] = (char)i;
}

template <class Body> static void in_thread(Body body)
{
    std::thread thread(body);
    thread.join();
}

// What is taken before and after a block stays, so that the freed block keeps its size and place.
static const size_t bytes = 20000;
static char *take() { return (char *)malloc(bytes); }

static bool by_malloc()
{
    take();
    char *block = take();
    take();
    in_thread([=] { fill(block, bytes); free(block); });
    char *next = take();
    in_thread([=] { fill(next, bytes); });
    return next == block;
}

static bool by_realloc()
{
    take();
    char *block = take();
    take();
    in_thread([=] { fill(block, bytes); });
    char *moved = (char *)realloc(block, 3 * bytes), *next = take();
    in_thread([=] { fill(next, bytes); fill(moved, bytes); });
    return next == block;
}

static bool by_delete()
{
    take();
    char *block = new char[bytes];
    take();
    in_thread([=] { fill(block, bytes); delete[] block; });
    char *next = new char[bytes];
    in_thread([=] { fill(next, bytes); });
    return next == block;
}

static char *map(char *where, size_t size)
{
    return (char *)mmap(where, size, PROT_READ | PROT_WRITE, MAP_PRIVATE | MAP_ANONYMOUS, -1, 0);
}

static bool by_munmap()
{
    const size_t size = 9 << 20; // more than one line of a trace may have
    char *block = map(nullptr, size);
    auto touch = [=](char *at) { for (size_t i = 0; i < size; i += 1 << 19) at[i] = 1; };
    in_thread([=] { touch(block); });
    munmap(block, size);
    char *next = map(block, size);
    in_thread([=] { touch(next); });
    return next == block;
}

// A thread that ended leaves its stack, and the next one gets it.
static bool by_stack()
{
    static uintptr_t places[2];
    for (uintptr_t &place : places)
        in_thread([&place] {
            int local[4] = {};
            __asm__ volatile("" : : "r"(local) : "memory");
            local[1]++;
            __atomic_store_n(&place, (uintptr_t)local, __ATOMIC_RELAXED);
        });
    return places[0] == places[1];
}

// Memory that is data, then a thread's stack, and then data again.
static char own[1 << 16] __attribute__((aligned(4096)));

static void *use_stack(void *nothing)
{
    char local[4000] = {};
    __asm__ volatile("" : : "r"(local) : "memory");
    fill(local, sizeof local);
    char *place = local;
    return place >= own && place < own + sizeof own ? nullptr : nothing;
}

static bool by_own_stack()
{
    pthread_attr_t how;
    pthread_t thread;
    void *is_elsewhere = nullptr;
    pthread_attr_init(&how);
    fill(own, sizeof own);
    if (pthread_attr_setstack(&how, own, sizeof own) != 0 || pthread_create(&thread, &how, use_stack, own) != 0)
        exit(1);
    pthread_join(thread, &is_elsewhere);
    fill(own, sizeof own);
    return !is_elsewhere;
}

int main()
{
    printf("malloc %d", by_malloc());
    printf(" realloc %d", by_realloc());
    printf(" delete %d", by_delete());
    printf(" munmap %d", by_munmap());
    printf(" stack %d", by_stack());
    printf(" own stack %d\n", by_own_stack());
}
