/* Gets memory, uses it and gives it back, many times. Each time is two events of the trace: the use, and that the memory gets a new use. The block is none. */
#include <stdlib.h>

int main(void)
{
    for (int number = 0; number < 50000; number++) {
        int *block = malloc(sizeof *block);
        if (!block)
            return 99;
        *(volatile int *)block = number;
        free(block);
    }
    return 0;
}
