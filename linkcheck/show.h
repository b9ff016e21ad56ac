/* Other looks at one table: for a person, as transition systems, typed fields as columns, and the text with and without marks. */
#ifndef SHOW_H
#define SHOW_H

#include "output.h"
#include "table.h"

/* Writes the table for a person, with its terms in infix. */
void show_table(struct output *out, const struct table *t);

enum side { IMPLEMENTATION, SPECIFICATION };

/* Write the transition system that the initial state reaches, within the sizes, and within the invariant on the implementation's side, in
 * the Aldebaran format; and a line for each of its states: its number there, the one of reports if it is the implementation's, its values.
 * Give NULL, or why there is none. */
const char *write_aut(struct output *out, const struct table *t, enum side side);
const char *write_aut_states(struct output *out, const struct table *t, enum side side);

/* Makes six-column lines from the numbers in a file, or in standard input for "-", with any blanks between them, and comments if files are
 * typed ones; lines without a number are left out. Nothing is written before the end is read. Gives the exit status, after a message unless
 * it is 0: 2 for what is no table, 3 if it could not be read. */
int write_columns(struct output *out, const char *name);

enum sort { MARKED, UNMARKED };

/* Writes the text in a file, or in standard input for "-", with a line of kind 8 or without it. Gives the exit status, after a message unless
 * it is 0: 2 for a text that is turned down, of which nothing is written, 3 if it could not be read. */
int write_sort(struct output *out, const char *name, enum sort sort);

#endif
