#define _GNU_SOURCE
#include "stacks.h"

#include <stdbool.h>
#include <string.h>

#include "nodes.h"
#include "recording.h"
#include "sites.h"
#include "trace.h"

/* A number that no slot has. */
#define NO_STACK UINT32_MAX

uint32_t stack_of_event, caller_of_event;
uint64_t stacks_cut;

/* What the ring's nodes are in the trace, as long as the program's files stay what they are. */
static struct known {
    uint32_t node;
    uint32_t life; /* 0: not known */
} *known;
static uint32_t known_room, life = 1;
/* The way from a node up to one that is known. */
static uint32_t *path;
static size_t path_room;

static bool is_known(uint32_t number)
{
    return known[number].life == life;
}

static void make_room(uint32_t number)
{
    if (number < known_room)
        return;
    uint32_t room = number < 1024 ? 2048 : 2 * number;
    known = get_zeroed(known, known_room * sizeof *known, room * sizeof *known);
    known_room = room;
}

void stacks_forget_places(void)
{
    life++;
    stack_of_event = NO_STACK;
}

/* Calls before the first function of the program's own have no node: they are the C library's or the recorder's. Nobody needs their lines, and to unpack
 * the C library's debug information takes longer than to record a short program. Nor has the recorder's own call of a function that it was given, as by
 * pthread_once: the program has called the C library. */
static uint32_t new_node(uint64_t call, uint32_t caller)
{
    if (sites_is_recorder(call))
        return caller;
    return caller || sites_has_instrumented(call) ? nodes_of_call(call, caller) : 0;
}

/* The trace's node of a node of the ring. The program may have written anything into the ring: a caller is a node that was there before. */
static uint32_t look_up(uint32_t number)
{
    const struct stack_node *nodes = recording.ring->stacks.nodes;
    size_t length = 0;
    if (number >= STACK_NODES)
        return 0;
    make_room(number);
    while (number && !is_known(number)) {
        if (length == path_room)
            path = get_memory(path, (path_room = path_room ? 2 * path_room : 1024) * sizeof *path);
        path[length++] = number;
        number = nodes[number].caller < number ? nodes[number].caller : 0;
    }
    uint32_t node = number ? known[number].node : 0;
    while (length) {
        number = path[--length];
        node = new_node(nodes[number].call, node);
        known[number] = (struct known){node, life};
    }
    return node;
}

/* What is behind the node is not known. */
static uint32_t look_behind(uint32_t node)
{
    stacks_cut++;
    return node_of(CALLS_LEFT_OUT, node);
}

/* Each event that is cut is counted here. Without a trace there are no nodes of it. */
void stacks_look_up(uint32_t stack)
{
    if (!trace_form->creator)
        return;
    uint32_t node = look_up(stack & ~STACK_CUT);
    caller_of_event = stack & STACK_CUT ? look_behind(node) : node;
    stack_of_event = stack & STACK_CUT ? NO_STACK : stack;
}
