/* Calls that are made and left in ordinary ways.
 *
 * STACK leaf direct main-direct
 * STACK after-leaf main-direct
 * STACK leaf other main-other
 * STACK leaf other main-other-again
 * STACK deep main-deeper
 * STACK deep deeper main-deeper
 * STACK deep deeper deeper main-deeper
 * STACK back deeper deeper main-deeper
 * STACK back deeper main-deeper
 * STACK back main-deeper
 * STACK compare * main-sort
 * STACK points main-pointed
 * STACK pointed main-pointed
 * STACK leaf pointed main-pointed
 * STACK many main-many
 * STACK leaf many-leaf main-many
 * STACK leaf room main-room
 * STACK leaf room-again main-room
 * STACK in-line in-line-again caller main-inlined
 * STACK leaf in-line-leaf in-line-again caller main-inlined
 * STACK leaf last main-last
 * STACK leaf hidden main-hidden
 * STACK leaf started
 * STACK leaf started-again
 * STACK main-begin
 * STACK main-end
 * STACK main-join
 */
#include "marks.h"

static int values[] = {3, 1, 2, 0};
static void (*volatile pointer)(void);

APART static void leaf(void)
{
    shared++; /* @leaf */
}

APART static void direct(void)
{
    leaf(); /* @direct */
    shared++; /* @after-leaf */
}

APART static void other(void)
{
    leaf(); /* @other */
    __asm__ volatile("");
}

APART static void deeper(int times)
{
    shared++; /* @deep */
    if (times)
        deeper(times - 1); /* @deeper */
    shared++; /* @back */
}

static int compare(const void *one, const void *two)
{
    return *(const int *)one - *(const int *)two; /* @compare */
}

APART static void point(void)
{
    pointer = leaf; /* @points */
    pointer(); /* @pointed */
    __asm__ volatile("");
}

/* Some of the arguments are on the stack. */
APART static int many(int a, int b, int c, int d, int e, int f, int g, int h, int i)
{
    shared++; /* @many */
    leaf(); /* @many-leaf */
    return a + b + c + d + e + f + g + h + i;
}

APART static void fill(char *room, size_t size)
{
    for (size_t i = 0; i < size; i++)
        __asm__ volatile("" : : "r"(room + i));
}

/* The stack pointer is another one at each call. */
APART static void make_room(size_t size)
{
    fill(__builtin_alloca(size), size);
    leaf(); /* @room */
    fill(__builtin_alloca(2 * size), size);
    leaf(); /* @room-again */
    __asm__ volatile("");
}

INLINED void in_line(void)
{
    shared++; /* @in-line */
    leaf(); /* @in-line-leaf */
}

INLINED void in_line_again(void)
{
    in_line(); /* @in-line-again */
}

APART static void calls_inlined(void)
{
    in_line_again(); /* @caller */
    __asm__ volatile("");
}

/* It ends where the other one ends. */
APART static void last(void)
{
    leaf(); /* @last */
}

/* Nobody says that it is entered: so the line that calls it is in no stack. */
UNWATCHED static void hide(void)
{
    leaf(); /* @hidden */
    __asm__ volatile("");
}

APART static void calls_hidden(void)
{
    hide(); /* @hides */
    __asm__ volatile("");
}

static void *work(void *nothing)
{
    leaf(); /* @started */
    leaf(); /* @started-again */
    return nothing;
}

int main(void)
{
    pthread_t *thread = malloc(sizeof *thread);
    shared++; /* @main-begin */
    direct(); /* @main-direct */
    other(); /* @main-other */
    other(); /* @main-other-again */
    deeper(2); /* @main-deeper */
    qsort(values, 4, sizeof *values, compare); /* @main-sort */
    point(); /* @main-pointed */
    many(1, 2, 3, 4, 5, 6, 7, 8, 9); /* @main-many */
    make_room(100); /* @main-room */
    calls_inlined(); /* @main-inlined */
    last(); /* @main-last */
    calls_hidden(); /* @main-hidden */
    pthread_create(thread, NULL, work, NULL);
    pthread_join(*thread, NULL); /* @main-join */
    shared++; /* @main-end */
    return 0;
}
