/* Rounds of barriers. A thread that leaves a barrier comes after those that arrived in the same round, and not after one that has arrived
 * for the next round already. So a barrier is two objects in turn, one for every other round. */
#ifndef ERASER_BARRIERS_H
#define ERASER_BARRIERS_H

#include <stdint.h>

/* A barrier lets `count` threads go at a time. 0: its rounds can't be counted, and it is one object. */
void barriers_begin(uint64_t address, uint64_t count);
/* A barrier is destroyed. */
void barriers_end(uint64_t address);
/* A thread arrives, by a call that returns to this place, and signals the object of this round. */
void barriers_arrive(uint32_t thread, uint64_t address, uint64_t place);
/* It leaves, and awaits the object of the round in which it arrived. The barrier may have been destroyed by then, and another be in its place. */
void barriers_leave(uint32_t thread, uint64_t address, uint64_t place);

#endif
