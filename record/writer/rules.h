/* The rules of --suppress for races that are reported online: those of sites and of words (docs/FORMATS.md, "Suppression text"). */
#ifndef ERASER_RULES_H
#define ERASER_RULES_H

#include <stdbool.h>
#include <stddef.h>
#include <stdint.h>

/* Ends the recorder if the file can't be read, or has a line that is no such rule. */
void rules_read(const char *path);
/* Whether a rule takes a race of this word at this site. */
bool rules_take(const char *site, size_t bytes, uint64_t word);

#endif
