/* More stacks than there is room for. */
#include "marks.h"

APART static void tree(int height)
{
    shared++;
    if (height) {
        tree(height - 1);
        tree(height - 1); /* another call */
    }
    __asm__ volatile("");
}

int main(void)
{
    tree(20);
    tree(3);
    return 0;
}
