/* The calls that a thread is in. Only the library of `record/run --stacks` keeps them; the other one is compiled without. */
#ifndef ERASER_STACKS_H
#define ERASER_STACKS_H

#include <stdbool.h>
#include <stddef.h>
#include <stdint.h>

#ifndef KEEPS_STACKS
#define KEEPS_STACKS 0
#endif

/* A function that was entered and not left. */
struct frame {
    uintptr_t pointer; /* its stack pointer when it had been entered */
    uint64_t call;     /* the place that it returns to */
    uint64_t through;  /* where the frame before called code that isn't instrumented and called this one, or 0 */
    uint32_t stack;    /* the node of its calls, as in a slot, or STACK_UNKNOWN */
};
#define STACK_UNKNOWN UINT32_MAX

/* Frames deeper than these are counted, and not kept. */
#define FRAMES 4096
/* The frames on one machine stack. A thread has its own, and others for its signal handlers and fibers. */
struct stack {
    struct frame *top;   /* what was entered last; the lowest one stands for what called the first function */
    uintptr_t begin, high; /* the bounds of the machine stack */
    uintptr_t low;       /* the same as `begin`, or beyond all pointers: then each look at it is a slow one */
    uint64_t deeper;     /* functions that were entered when there was no room */
    struct stack *next;  /* of the same thread */
    bool is_own, is_for_signals, is_guessed; /* guessed: its memory may go without notice */
    struct frame frames[1 + FRAMES];
};

/* The machine stack that this thread was on last, or NULL. */
extern __thread struct stack *stack_now __attribute__((tls_model("initial-exec")));

/* The node of the calls that this thread is in, if a function of this library was called with this stack pointer. */
uint32_t stack_look(uintptr_t pointer);
/* The same for a call from a place that may be in any code. */
uint32_t stack_look_from(uintptr_t pointer, uint64_t place);
/* The bounds of the machine stack on which this thread begins. */
void stack_begin(void *low, size_t size);
/* Nothing that this thread has entered goes on. */
void stack_clear(void);
void stack_end(void);
/* Another ring takes the events, and its nodes are others. */
void stack_forget_nodes(void);

#endif
