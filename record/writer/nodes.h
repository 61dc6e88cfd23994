/* The places of the binary form: nodes of a tree, each of which has a place in the sources and the node of its caller. */
#ifndef ERASER_NODES_H
#define ERASER_NODES_H

#include <stdint.h>

/* Stands for calls of which nothing is known, in place of a program counter. */
#define CALLS_LEFT_OUT UINT64_MAX

/* Nodes that were asked for lately. Number 0 marks a free entry. */
#define RECENT_NODES 1024u
struct recent_node {
    uint64_t place;
    uint32_t caller, node;
};
extern struct recent_node recent_nodes[RECENT_NODES];

uint32_t nodes_find(uint64_t place, uint32_t caller);

/* The node of the call that returns to this place, in a function that the call of node `caller` made (0: not known). It is written if it is new. 0 if
 * it can't be written. */
static inline uint32_t node_of(uint64_t place, uint32_t caller)
{
    const struct recent_node *recent = &recent_nodes[(place ^ caller) % RECENT_NODES];
    return recent->place == place && recent->caller == caller && recent->node ? recent->node : nodes_find(place, caller);
}

/* The node of a call in which others are made, outside of headers of the system: that of `caller` if the call is in these alone. */
uint32_t nodes_of_call(uint64_t place, uint32_t caller);

/* The program's files have changed, so that a place may have another node from now on. */
void nodes_forget_places(void);

#endif
