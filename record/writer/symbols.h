/* The symbols of a file, by address. Read once: libdw would look through all of them for each address. */
#ifndef ERASER_SYMBOLS_H
#define ERASER_SYMBOLS_H

#include <elfutils/libdwfl.h>
#include <stdbool.h>
#include <stddef.h>

/* A function or a variable as the symbols have it. */
struct symbol {
    Dwarf_Addr begin, end;
    Dwarf_Addr reach; /* the greatest end of those up to here */
    const char *name;
    int rank;
};
struct symbols {
    bool is_read;
    size_t count;
    struct symbol *all; /* by rising begin */
};

/* The innermost symbol of a type (STT_FUNC, STT_OBJECT) that has this address, or NULL. Only symbols of that type are among these. */
const struct symbol *symbols_find(struct symbols *symbols, Dwfl_Module *file, int type, Dwarf_Addr address);

#endif
