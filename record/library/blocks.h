/* Online: the blocks of memory that the program has, as far as there is room for them, by their addresses. A report names the one that raced. */
#ifndef ERASER_BLOCKS_H
#define ERASER_BLOCKS_H

#include <stdbool.h>
#include <stdint.h>

struct block {
    uint64_t begin, size;
    uint64_t place; /* of the call that gave it to the program, or 0 */
    uint32_t stack; /* the calls around that */
};

/* Nothing is known, as in a process that begins. */
void blocks_begin(void);
/* The program has one more. If there is no room, it takes that of another one, which is forgotten. */
void blocks_add(struct block block);
/* A block that begins there, of at most this size, is no more. */
void blocks_forget(uint64_t begin, uint64_t size);
/* The smallest block that has this address. False if none is known. */
bool blocks_find(uint64_t address, struct block *found);

#endif
