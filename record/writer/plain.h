/* Names of functions and variables as a person writes them: with the scopes, and without parameters, template arguments and blanks. */
#ifndef ERASER_PLAIN_H
#define ERASER_PLAIN_H

#include <stddef.h>

/* The most bytes of a name, with the zero that ends it. Of a longer one the end is left out. */
#define PLAIN_BYTES 1024

/* Adds a scope, or what stands in the scopes that were added before: `push<int>` as debug information has it, or `push<int>(int) const`. A namespace
 * without a name has no part, and the function of a lambda is its scope. */
void plain_add(char name[PLAIN_BYTES], const char *part, size_t bytes);
/* The name of a symbol: `_ZZ4mainE5calls` is main::calls. */
void plain_symbol(const char *symbol, char name[PLAIN_BYTES]);

#endif
