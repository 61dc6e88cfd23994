/* The calls in which events are made: the ring's tree of program counters, as nodes of the trace. */
#ifndef ERASER_STACKS_H
#define ERASER_STACKS_H

#include <stdint.h>

/* The calls of the event that is being taken, as its slot has them, unless they have to be looked up again for the next one. */
extern uint32_t stack_of_event;
/* The trace's node of the innermost one of them, or 0. */
extern uint32_t caller_of_event;
/* Events of which not all calls are known. */
extern uint64_t stacks_cut;

void stacks_look_up(uint32_t stack);

/* The next event is made in these calls. */
static inline void stacks_set(uint32_t stack)
{
    if (stack != stack_of_event)
        stacks_look_up(stack);
}

/* The program's files have changed, so that a place may have another node from now on. */
void stacks_forget_places(void);

#endif
