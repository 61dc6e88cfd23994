/* What --online says: races as the detector in the program finds them, and at the end how many there were where. */
#ifndef ERASER_ONLINE_H
#define ERASER_ONLINE_H

#include <stdint.h>

#include "../ring.h"
#include "further.h"

/* One part of a race. The last one says what the race is. */
void online_take(const struct slot *slot);
/* Puts what was found into the outcome of the program. */
void online_fill(struct outcome *outcome);
/* How many events the detector was told, and how many it was not. */
void online_say_watched(uint64_t events, uint64_t lost);

#endif
