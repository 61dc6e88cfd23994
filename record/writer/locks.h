/* The program's locks: what they are called, who holds them, and which of their events a trace has. */
#ifndef ERASER_LOCKS_H
#define ERASER_LOCKS_H

#include <stdbool.h>
#include <stdint.h>

#include "../ring.h"

struct acquire {
    enum lock_kind kind;
    bool reads;
    bool never_waits; /* by a call that gives up in place of waiting */
    uint64_t place; /* program counter of the call, or 0 */
};
/* A thread acquired a lock. Only the outermost acquire is written. */
void locks_acquire(uint32_t thread, uint64_t address, struct acquire acquire);
/* A call that never waits didn't acquire it. */
void locks_fail(uint32_t thread, uint64_t address, struct acquire acquire);
struct release {
    enum lock_kind kind;
    bool has_failed; /* whoever holds it holds it still */
    uint64_t place;  /* program counter of the call */
};
/* A thread is about to release a lock, in whichever mode it holds it. If it doesn't, that is said. */
void locks_release(uint32_t thread, uint64_t address, struct release release);
/* A thread waits for a lock that it holds. */
void locks_wait_for_own(uint32_t thread, uint64_t address, uint64_t place);
/* A lock's life begins, by the call at this place, or ends: the next acquire at this address is another lock's, unless this one is held now. */
void locks_begin(uint64_t address, uint64_t place);
void locks_end(uint32_t thread, uint64_t address, uint64_t place);
/* Memory is put to a new use: the locks in it are no more. `place` is that of a call by which the thread frees it, or 0. */
void locks_forget(uint64_t address, uint64_t bytes, uint32_t thread, uint64_t place);

#endif
