/* Stepping through a table, at a terminal or by a script. */
#ifndef WALK_H
#define WALK_H

#include "output.h"

/* Shows the states of the table in a file from the initial one on, as the commands say that are read from standard input, a line each.
 * Gives the exit status: 0; after a message 2 for a text that is turned down, 3 if it or the commands could not be read. */
int walk(struct output *out, const char *name);

#endif
