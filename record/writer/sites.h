/* Source lines of program counters, from the debug information of the program's files. */
#ifndef ERASER_SITES_H
#define ERASER_SITES_H

#include <elfutils/libdwfl.h>
#include <stdbool.h>
#include <stddef.h>
#include <stdint.h>

#include "symbols.h"

/* A site as it ends a line: a space and the site. */
struct site {
    uint64_t place;
    const char *text;
    uint32_t bytes;
    bool is_instrumented; /* the code there is in a file that is */
    bool is_in_header;    /* the line is in a header of the system */
    const char *function; /* that the place is in, if it is known and sites have callers, or "" */
    const struct site *caller; /* where the line's function was inlined, if it was and that is wanted, or NULL */
};

/* If set before the first look-up, sites have their paths as the compiler has them. */
extern bool sites_have_paths;
/* If set before the first look-up, sites have their functions, and the callers into which these were inlined. */
extern bool sites_have_callers;
/* Before the first look-up: sites of files below this folder have their paths from there on. Else it is the folder that all sources of the
 * program's own lie below. */
void sites_set_root(const char *folder);

/* The program's mapped files are those of this text, which has the form of /proc/PID/maps. True if they have changed, so that a place may be another
 * site. */
bool sites_set_maps(const char *text, size_t bytes);
/* The site of the call that returns to this place. It holds until the next call. */
const struct site *site_of(uint64_t place);
/* The program's files, opened when they are asked for first, or NULL if none can be read. */
Dwfl *sites_files(void);
bool sites_is_instrumented(Dwfl_Module *file);
/* The variable that has this address, as the symbols of the program's files have it, or NULL. */
const struct symbol *sites_variable(uint64_t address);
/* Whether a place is in a file that is instrumented, without a look at its debug information. */
bool sites_has_instrumented(uint64_t place);
/* Whether a place is in the recorder's own library, which is loaded by the name of ThreadSanitizer's. */
bool sites_is_recorder(uint64_t place);

#endif
