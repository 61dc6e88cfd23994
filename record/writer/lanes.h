/* Takes the events out of the lanes of a ring, in the order of their tickets. */
#ifndef ERASER_LANES_H
#define ERASER_LANES_H

#include <stdint.h>

#include "../ring.h"

/* The event of this ticket, which is the one behind the event that was taken or given up last, and the number of its thread. NULL if it isn't published
 * yet. Its slot stays as it is until the next call. */
const struct slot *lanes_take(struct ring *ring, uint64_t ticket, uint32_t *thread);

#endif
