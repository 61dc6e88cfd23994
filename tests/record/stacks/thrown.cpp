/* Functions that are left by exceptions. Those of through.c are left without notice, since they are C.
 *
 * STACK leaf throws climbs climbs climbed-begin catches
 * STACK leaf caught catches
 * STACK leaf wide caught-on catches
 * STACK leaf throws comes * * * passes main-passes
 * STACK leaf wide passed-on main-passes
 * STACK leaf passed main-passes
 * STACK leaf destroyed cleans main-cleans
 * STACK leaf throws cleans main-cleans
 * STACK main-caught
 * STACK counts climbs climbed-begin catches
 * STACK counts climbed-begin catches
 */
#include "marks.h"

struct Thrown {};

extern "C" void through(int times, void (*body)(void));

APART static void use(char *room)
{
    __asm__ volatile("" : : "r"(room) : "memory");
}

APART static void leaf()
{
    shared++; /* @leaf */
}

APART static void wide()
{
    char room[1000];
    use(room);
    leaf(); /* @wide */
    use(room);
}

APART static void throws()
{
    leaf(); /* @throws */
    throw Thrown();
}

APART static void climb(int times)
{
    shared++; /* @counts */
    if (times)
        climb(times - 1); /* @climbs */
    else
        throws(); /* @climbs */
    use(nullptr);
}

APART static void catches()
{
    try {
        climb(1); /* @climbed-begin */
    } catch (const Thrown &) {
        wide(); /* @caught-on */
    }
    leaf(); /* @caught */
    use(nullptr);
}

static void comes()
{
    throws(); /* @comes */
}

APART static void passes()
{
    try {
        through(2, comes); /* @passes */
    } catch (const Thrown &) {
        wide(); /* @passed-on */
    }
    leaf(); /* @passed */
    use(nullptr);
}

struct Cleaned {
    APART ~Cleaned()
    {
        leaf(); /* @destroyed */
        use(nullptr);
    }
};

APART static void cleans()
{
    { Cleaned cleaned; throws(); } /* @cleans */
}

int main()
{
    catches(); /* @catches */
    passes(); /* @main-passes */
    try {
        cleans(); /* @main-cleans */
    } catch (const Thrown &) {
        shared++; /* @main-caught */
    }
}
