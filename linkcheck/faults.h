/* Why a text is turned down: by which rule, in which lines, and what is there. The number is the library's, and so are the lines that show
 * it (fault_line); the words for a line are linkcheck's own. */
#ifndef FAULTS_H
#define FAULTS_H

#include "output.h"
#include "table.h"
#include "typed.h"

/* The fault of a text that the library turned down by this number; of one that a typed file isn't, the number is 0. */
struct fault fault_of(const struct text *t, unsigned number);

/* What a fault is about; empty for a number that isn't known. */
const char *fault_word(const struct fault *f);

/* Why a text is turned down, without byte 10: its first place, and the lines of the others. */
void print_turned_down(struct output *out, const struct fault *f);

/* Of a fault that has several places each in a line of its own, with a byte 10 before it; nothing if it has one. */
void print_places(struct output *out, const struct fault *f);

/* The message that a text is turned down. Gives the exit status. */
int turn_down(const char *name, const struct fault *f);

/* The members of a JSON object. */
void json_fault(struct output *out, const struct fault *f);

#endif
