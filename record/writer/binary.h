/* What the binary form writes beside events: names that later records speak of. */
#ifndef ERASER_BINARY_H
#define ERASER_BINARY_H

#include <stdbool.h>
#include <stddef.h>
#include <stdint.h>

/* Flags of a node: its place is in a header of the system; its function was inlined into its caller's. */
#define NODE_IN_HEADER 1
#define NODE_INLINED 2

/* Writes the next place or the next node, whose number the caller counts. False if the trace has ended. */
bool binary_add_place(const char *text, size_t bytes);
/* The function that a place is in, which has the form of a site, or nothing. */
void binary_add_function(uint32_t place, const char *name);
bool binary_add_node(uint32_t caller, uint32_t place, uint8_t flags);

#endif
