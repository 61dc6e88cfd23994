/* Variables and threads that have names. It prints its variables: the name, the address, the bytes. With LIBRARY it is the library that
 * has the last one. A trace 4 says the same, and of each thread what it is called and the marks of the calls that created it:
 * THREAD - create main
 * THREAD the_second create main
 * THREAD the_third create main
 * THREAD the_fourth create main
 * THREAD by_class class main-class
 */
extern int in_library[10];

#ifdef LIBRARY
int in_library[10];
void touch(int place) { in_library[place]++; }
#else
#include <cstdio>
#include <sys/prctl.h>
#include <thread>

#include <semaphore.h>

#include "../stacks/marks.h"

void touch(int place);

long total;
static char table[40];
namespace pool {
short done;
static int busy[3];
} // namespace pool
struct Kept {
    static double count;
};
double Kept::count;
namespace {
int hidden;
}
template <class T> struct Box {
    static T made;
    APART static int *put(T value);
};
template <class T> T Box<T>::made;
template <class T> int *Box<T>::put(T value)
{
    static int puts;
    puts++;
    made = value;
    return &puts;
}

static sem_t named;

/* The first letter says how the name is given. */
static void *work(void *given)
{
    const char *name = static_cast<const char *>(given);
    if (name && name[4] == 's')
        pthread_setname_np(pthread_self(), name);
    else if (name && name[4] == 't')
        prctl(PR_SET_NAME, name);
    else if (name)
        sem_wait(&named);
    __atomic_fetch_add(&total, 1, __ATOMIC_SEQ_CST);
    shared++;
    return nullptr;
}

APART static void create(const char *name)
{
    pthread_t thread;
    pthread_create(&thread, nullptr, work, const_cast<char *>(name)); /* @create */
    if (name && name[4] == 'f') {
        pthread_setname_np(thread, name);
        sem_post(&named);
    }
    pthread_join(thread, nullptr);
}

APART static void create_by_class()
{
    std::thread thread(work, const_cast<char *>("by class")); /* @class */
    pthread_setname_np(thread.native_handle(), "by class");
    sem_post(&named);
    thread.join();
}

#define PRINT(name, variable) std::printf("%s %p %zu\n", name, static_cast<void *>(&(variable)), sizeof(variable))

int main()
{
    static int calls;
    sem_init(&named, 0, 0);
    create(nullptr); /* @main */
    create("the second"); /* @main */
    create("the third"); /* @main */
    create("the fourth"); /* @main */
    create_by_class(); /* @main-class */
    auto count = [] { static int counted; counted++; return &counted; };
    table[7] = 1;
    pool::busy[1] = pool::done = static_cast<short>(++calls);
    touch(3);
    PRINT("total", total);
    PRINT("table", table);
    PRINT("pool::done", pool::done);
    PRINT("pool::busy", pool::busy);
    PRINT("Kept::count", Kept::count);
    PRINT("main::calls", calls);
    PRINT("hidden", ++hidden);
    PRINT("Box::put::puts", *Box<short>::put(3));
    PRINT("Box::made", Box<short>::made);
    PRINT("main::{lambda}::counted", *count());
    PRINT("in_library", in_library);
}
#endif
