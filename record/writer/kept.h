/* A trace that is kept in a file: one that -o names, or one without a name until it has been replayed. */
#ifndef ERASER_KEPT_H
#define ERASER_KEPT_H

#include <stdbool.h>

/* Where `output.file` writes to from here on. No path: a file without a name, with a limit if none was given. Returns 0, or errno. */
int kept_open(const char *path);
/* Whether a replay can read it when it is written. */
bool kept_is_readable(void);
/* Starts the replay of it. */
void kept_replay(void);
/* What it is called on standard error. */
const char *kept_name(void);

#endif
