/* Recursion that is deeper than what a stack has of it, and than what is kept. Afterwards all is as it was: also if it was left by a jump.
 * tests/record_stacks_tests.py knows the stacks of @bottom.
 * STACK before main-few
 * STACK after main-few
 * STACK before main-some
 * STACK after main-some
 * STACK before main-many
 * STACK after main-many
 * STACK after main-jumps
 * STACK main-end
 */
#include "marks.h"

#include <setjmp.h>

static jmp_buf place;

APART static void deeper(int times, int jumps)
{
    if (times)
        deeper(times - 1, jumps); /* @deeper */
    else if (jumps)
        longjmp(place, 1);
    else
        shared++; /* @bottom */
    __asm__ volatile("" : : : "memory");
}

APART static void calls(int times)
{
    shared++; /* @before */
    deeper(times, 0); /* @calls */
    shared++; /* @after */
}

APART static void jumps(int times)
{
    if (setjmp(place) == 0)
        deeper(times, 1);
    shared++; /* @after */
}

int main(void)
{
    calls(20); /* @main-few */
    calls(300); /* @main-some */
    calls(6000); /* @main-many */
    jumps(300); /* @main-jumps */
    jumps(6000); /* @main-jumps */
    calls(20); /* @main-few */
    shared++; /* @main-end */
    return 0;
}
