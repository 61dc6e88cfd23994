/* Fences: what a thread passes on and takes over by relaxed operations on atomics. */
#ifndef ERASER_FENCES_H
#define ERASER_FENCES_H

#include <stdint.h>

/* A thread comes to a fence, which acquires or releases or both: FENCE_ACQUIRES, FENCE_RELEASES. */
void fences_pass(uint32_t thread, uint32_t does);
/* It stores to an atomic without a release, or loads from one without an acquire. */
void fences_store(uint32_t thread, uint64_t address);
void fences_load(uint32_t thread, uint64_t address);
/* It was joined by another one. */
void fences_end(uint32_t by, uint32_t thread);

#endif
