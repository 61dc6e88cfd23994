/* What the programs of this folder share.
 *
 * An access of a program is at a line with a mark: @NAME in a comment. STACK names the marks of an access and of the calls that it is in, the innermost
 * first, and each program names all stacks that its accesses have. `*` is a place in another file. */
#ifndef MARKS_H
#define MARKS_H

#include <pthread.h>
#include <stdlib.h>

#ifdef __clang__
#define APART __attribute__((noinline))
#define UNWATCHED __attribute__((disable_sanitizer_instrumentation, noinline))
#else
#define APART __attribute__((noipa))
#define UNWATCHED __attribute__((no_sanitize("thread"), noinline))
#endif
#define INLINED static inline __attribute__((always_inline))

static int shared;

#endif
