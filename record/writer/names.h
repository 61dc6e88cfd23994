/* Names of locks and of other objects that threads use to wait for one another. No two that a trace has are the same. */
#ifndef ERASER_NAMES_H
#define ERASER_NAMES_H

#include <stdint.h>

/* A new name for what is at this address, to be freed: that of its variable, or its kind and the next number of `count`. */
char *make_name(uint64_t address, const char *kind, unsigned *count);

/* Where a table looks for a name first: names that are the same have the same number. */
uint32_t hash_name(const char *name);

#endif
