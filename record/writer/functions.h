/* Functions: which places they have, where a compiler has inlined them, and what they are called, from the debug information. */
#ifndef ERASER_FUNCTIONS_H
#define ERASER_FUNCTIONS_H

#include <dwarf.h>
#include <elfutils/libdw.h>

/* A function's code, by itself or in its caller's. */
struct function {
    Dwarf_Addr begin, end;
    const char *file; /* if it was inlined, the line of the call, as the debug information has it, or NULL */
    int line;
    struct function *outer; /* the function that it was inlined into, or NULL */
    const void *die;
    char *name; /* NULL before it is looked up */
};

/* The number of ranges that begin at or below a place. `ranges` are `count` structs of `bytes` bytes each. The first member of each is where its range
 * begins, and they are sorted by it. */
size_t count_begun(const void *ranges, size_t count, size_t bytes, Dwarf_Addr place);
/* The innermost one that has this place of the unit, or NULL. */
struct function *function_at(Dwarf_Die *unit, Dwarf_Addr place);
/* What it is called, with its scopes, or nothing. A function that is NULL is called nothing. */
const char *function_name(Dwarf_Die *unit, struct function *function);
/* The debug information goes, and all of these with it. */
void functions_forget(void);

#endif
