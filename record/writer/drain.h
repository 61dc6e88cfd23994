/* Takes events out of the ring and writes what they mean. */
#ifndef ERASER_DRAIN_H
#define ERASER_DRAIN_H

#include <stdbool.h>

#include "../ring.h"

/* Whether a block was given back. */
extern bool drain_has_frees;

/* Takes all events that are published. True if there were any. */
bool drain(struct ring *ring);
/* True if tickets were drawn for which nothing is published yet. */
bool drain_is_behind(struct ring *ring);
/* Gives up the event that the ring waits for. */
void drain_skip(struct ring *ring);

#endif
