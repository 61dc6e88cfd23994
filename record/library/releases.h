/* Online: releases of locks by threads that don't hold them. Whoever holds such a lock to write, and has taken it before that, holds it no more. */
#ifndef ERASER_RELEASES_H
#define ERASER_RELEASES_H

#include <stdatomic.h>
#include <stdbool.h>
#include <stdint.h>

/* How many such releases there were. */
extern _Atomic uint64_t release_count;

/* One more, of this lock. False if there is no memory for it. */
bool note_release(uint64_t lock);
/* Which one was the last of this lock, counted from 1 on. 0 if there was none. */
uint64_t last_release(uint64_t lock);
/* The lock is no more: another one may come to its address. */
void forget_release(uint64_t lock);
/* There was none of any lock, as in a process that begins. What was known stays where it is. */
void releases_begin(void);

#endif
