/* Whether a state of the implementation is reached, and how: runs from the initial state by steps that have their values and lead inside
 * the sizes, whether the invariant holds on the way or not. */
#ifndef RUNS_H
#define RUNS_H

#include "output.h"
#include "state.h"

/* A state, and a step from it: a row, counted from 1, and a sum value. */
struct stop {
    unsigned state, row, sum;
};

/* A shortest run to a state, of the shortest ones the first by its rows and sum values. */
struct run {
    bool reached, unreached; /* neither if it isn't known */
    unsigned end;
    struct stop *stop; /* the steps in order, on the heap */
    size_t length;
};

/* Looks for a run to a state. What is found is held against the table step by step; if that fails, or the table's time is over before,
 * nothing is known. */
struct run run_to(const struct table *t, unsigned state);
void run_free(struct run *r);

/* Where the step of a stop leads; and what is seen of it: "tau", or an action with its data, as "a2(1)". */
struct state step_end(const struct table *t, const struct stop *from);
void print_step_label(struct output *out, const struct table *t, const struct stop *from);

/* The states and labels of a run on one line, those in the middle of a long one counted; or all of them, each on a line of its own after
 * byte 10. */
void print_run(struct output *out, const struct table *t, const struct run *r);
void print_whole_run(struct output *out, const struct table *t, const struct run *r);

#endif
