/* Where the detector's memory comes from. That is malloc, unless this is compiled with ERASER_OWN_PAGES: then it is pages that the system gives, so that a
 * detector may watch the calls of malloc, whichever one the program has. Such sources are compiled with this file in front of all others. */
#ifndef ERASER_MEMORY_H
#define ERASER_MEMORY_H

#ifdef ERASER_OWN_PAGES
#include <stdint.h>
#include <stdlib.h>

void *eraser_take(size_t size);
void *eraser_take_aligned(size_t alignment, size_t size);
void *eraser_resize(void *block, size_t size);
void eraser_give(void *block);
/* How many bytes of pages it has is written here from now on. */
void eraser_count_pages(_Atomic uint64_t *bytes);
/* In a child that was forked, before any other call, where detectors are over such pages: the child has none of its parent's detectors and of their memory.
 * So a fork takes no lock of theirs, and doesn't wait for those who have one. */
void eraser_forget(void);
void eraser_forget_pages(void);

#define malloc eraser_take
#define aligned_alloc eraser_take_aligned
#define realloc eraser_resize
#define free eraser_give
#endif

#endif
