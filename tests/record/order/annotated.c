/* A program that says itself what orders its threads, since the operations by which it does so order nothing. */
#include "../meet.h"

void AnnotateHappensBefore(const char *file, int line, const volatile void *object);
void AnnotateHappensAfter(const char *file, int line, const volatile void *object);
void __tsan_release(void *object);
void __tsan_acquire(void *object);

static int one, other, neither, gate;

static void run(int number)
{
    if (number == 0) {
        one++;
        AnnotateHappensBefore(__FILE__, __LINE__, &one);
        other++;
        __tsan_release(&gate);
        neither++;
        next_turn();
    } else {
        take_turn(1);
        AnnotateHappensAfter(__FILE__, __LINE__, &one);
        one++;
        __tsan_acquire(&gate);
        other++;
        neither++; /* UNORDERED */
    }
}

int main(void)
{
    run_threads(2, run);
    return 0;
}
