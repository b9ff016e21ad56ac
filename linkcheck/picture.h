/* A table's transition systems as a Graphviz picture. */
#ifndef PICTURE_H
#define PICTURE_H

#include "output.h"
#include "verdict.h"

/* What is to be drawn. */
struct drawing {
    bool board, ours;
    bool around;         /* only what is around a state of the board, */
    unsigned long state; /* which has this number, */
    unsigned steps;      /* up to so many steps away */
};

/* Writes one graph: the states that the initial state reaches, or those around a state, with the place of a failure. Gives NULL, or why
 * there is none. */
const char *write_dot(struct output *out, const char *name, const struct verdict *v, const struct drawing *d);

#endif
