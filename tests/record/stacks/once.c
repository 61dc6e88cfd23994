/* A function that the recorder calls in place of the C library, with --order. That call has no node.
 *
 * STACK body begins main-begins
 * STACK begun main-begins
 * STACK begun main-again
 */
#include "marks.h"

static pthread_once_t once = PTHREAD_ONCE_INIT;

static void body(void)
{
    shared++; /* @body */
}

APART static void begin(void)
{
    pthread_once(&once, body); /* @begins */
    shared++; /* @begun */
}

int main(void)
{
    begin(); /* @main-begins */
    begin(); /* @main-again */
    return 0;
}
