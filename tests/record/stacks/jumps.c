/* Functions that are left by longjmp: from a callee, from the end of many calls, and from signal handlers on the same and on another stack.
 *
 * STACK jump goes main-goes
 * STACK landed main-goes
 * STACK leaf wide goes-on main-goes
 * STACK before main-goes
 * STACK jump climbs climbs climbs climbed-begin main-climbs
 * STACK leaf climbed main-climbs
 * STACK leaf wide climbed-on main-climbs
 * STACK handled * raises handles main-handles
 * STACK leaf wide handled-on main-handles
 * STACK handled * raises handles main-elsewhere
 * STACK leaf wide handled-on main-elsewhere
 * STACK handled-wide * raises handles main-wide
 * STACK leaf wide handled-on main-wide
 * STACK sets
 * STACK main-end
 */
#define _GNU_SOURCE
#include "marks.h"

#include <setjmp.h>
#include <signal.h>

static jmp_buf place;
static sigjmp_buf signal_place;

APART static void leaf(void)
{
    shared++; /* @leaf */
}

APART static void use(char *room)
{
    __asm__ volatile("" : : "r"(room) : "memory");
}

/* It needs more of the stack than what was left by a jump. */
APART static void wide(void)
{
    char room[1000];
    use(room);
    leaf(); /* @wide */
    use(room);
}

APART static void jump(void)
{
    shared++; /* @jump */
    longjmp(place, 1);
}

APART static void goes(void)
{
    shared++; /* @before */
    if (setjmp(place) == 0)
        jump(); /* @goes */
    shared++; /* @landed */
    wide(); /* @goes-on */
    __asm__ volatile("");
}

APART static void climb(int times)
{
    if (times)
        climb(times - 1); /* @climbs */
    else
        jump(); /* @climbs */
    use(NULL);
}

APART static void climbs(void)
{
    if (setjmp(place) == 0)
        climb(2); /* @climbed-begin */
    leaf(); /* @climbed */
    wide(); /* @climbed-on */
    __asm__ volatile("");
}

static void handle(int number)
{
    (void)number;
    shared++; /* @handled */
    siglongjmp(signal_place, 1);
}

/* It needs more of the other stack than the handler that was left there. */
static void handle_wide(int number)
{
    char room[1000];
    use(room);
    shared += number; /* @handled-wide */
    use(room);
    siglongjmp(signal_place, 1);
}

APART static void raises(int number)
{
    raise(number); /* @raises */
    use(NULL);
}

APART static void handles(int number)
{
    if (sigsetjmp(signal_place, 1) == 0)
        raises(number); /* @handles */
    wide(); /* @handled-on */
    __asm__ volatile("");
}

int main(void)
{
    static char room[65536];
    static stack_t elsewhere;
    static struct sigaction action;
    elsewhere = (stack_t){.ss_sp = room, .ss_size = sizeof room}; /* @sets */
    action.sa_handler = handle; /* @sets */
    goes(); /* @main-goes */
    climbs(); /* @main-climbs */
    sigaction(SIGUSR1, &action, NULL);
    sigaltstack(&elsewhere, NULL);
    action.sa_flags = SA_ONSTACK; /* @sets */
    sigaction(SIGUSR2, &action, NULL);
    action.sa_handler = handle_wide; /* @sets */
    sigaction(SIGWINCH, &action, NULL);
    handles(SIGUSR1); /* @main-handles */
    handles(SIGUSR2); /* @main-elsewhere */
    handles(SIGWINCH); /* @main-wide */
    shared++; /* @main-end */
    return 0;
}
