/* Names of variables, from the symbols of the program's files. */
#ifndef ERASER_VARIABLES_H
#define ERASER_VARIABLES_H

#include <stdbool.h>
#include <stddef.h>
#include <stdint.h>

#include "plain.h"

struct variable {
    uint64_t address, size;
    const char *name;
};

/* The name of the variable at an address, with an offset if the address lies inside it. False if it is none of a file's. */
bool symbol_of(uint64_t address, char name[PLAIN_BYTES]);
/* Each variable of a file that is instrumented, by rising address. Of several names for one address it has the first. */
void variables_each(void (*visit)(const struct variable *variable));

#endif
