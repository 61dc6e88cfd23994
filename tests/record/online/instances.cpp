// Three instances of one line, each of which races: a thread is stopped once.
#include "../meet.h"

#include <csignal>

static volatile std::sig_atomic_t stopped;

static void count(int) { stopped = stopped + 1; }

template <int number> struct box {
    static long value;
    __attribute__((noinline)) static void set(long now) { value = now; /* RACE */ }
};
template <int number> long box<number>::value;

static void work(int number)
{
    take_turn(number);
    box<1>::set(number);
    box<2>::set(number);
    box<3>::set(number);
    next_turn();
}

int main()
{
    std::signal(SIGTRAP, count);
    run_threads(2, work);
    printf("%d\n", int(stopped));
}
