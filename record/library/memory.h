/* What the hooks of memory share. */
#ifndef ERASER_MEMORY_H
#define ERASER_MEMORY_H

#include "emit.h"

#include <malloc.h>
#include <stdlib.h>

typedef __typeof__(&malloc_usable_size) size_function; /* NULL: nobody knows how long a block is */

/* That of the functions behind this library. The program may have functions in front of it, of an allocator of its own or not. */
struct allocator {
    __typeof__(&malloc) malloc;
    __typeof__(&calloc) calloc;
    __typeof__(&free) free;
    size_function size_of;
    size_function size_in_front; /* of a block for the program's own `free` */
    bool is_first;   /* the program has no `free` itself */
    bool is_foreign; /* not the C library's: it may have ways to give memory back that nobody sees */
    bool is_plain;   /* neither: the program has no `malloc` and no `free` itself, and the C library has them */
};
/* All zero until it is known. */
extern struct allocator allocator;

/* A block for this library itself, of which no event is recorded. */
void *take_own(size_t size);
void give_own(void *block);
/* Gives a block back, if it is one, and records before that a call at this place does so. */
void give_back(void *block, uint64_t site);
/* Records that a call at this place has got a block, if it has and calls are recorded or the allocator isn't the C library's, and returns it. */
void *note_taken(void *block, size_t size, uint64_t place);
/* Whether blocks that are given out need no note. */
#define NOTES_NONE (!KEEPS_BLOCKS && allocator.is_plain)
/* Whether a function is in the allocator's file. */
bool is_of_allocator(const void *function);
/* Whether calls of `free` are recorded. They are not if the program has one itself. */
bool is_free_seen(void);

#endif
