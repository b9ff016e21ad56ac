/* What has no value in a state, and why: criterion 10, and the other criteria where they fail by it. */
#ifndef MISSING_H
#define MISSING_H

#include "output.h"
#include "state.h"
#include "terms.h"

enum part { NOTHING, THE_INVARIANT, A_MAPPED_VALUE, THE_MEASURE, A_CONDITION, A_MARK, DATA_NUMBER, A_NEXT_VALUE };

/* A term without a value; its part is NOTHING if there is none. */
struct missing {
    enum part part;
    const struct table *table;
    const struct process *process; /* whose parameters it reads */
    const struct row *row;         /* NULL outside rows */
    unsigned sum;
    unsigned parameter; /* which next value, or which mapped value, counted from 0 */
    struct state at;    /* where it is evaluated */
    struct gap gap;
};

struct missing missing_invariant(const struct table *t, const struct state *s);
struct missing missing_mapped(const struct table *t, const struct state *s);
struct missing missing_measure(const struct table *t, const struct state *s);

/* The first that a row lacks for a sum value: condition and mark, and of an enabled row data and next values. And the first that the rows
 * of a process lack: rows rise, within a row sum values. */
struct missing missing_in_row(const struct process *p, const struct row *row, const struct state *s, unsigned sum);
struct missing missing_in_rows(const struct process *p, const struct state *s);

/* The first by which a state fails criterion 10: the invariant; where it holds the mapping, the measure, the implementation's rows, and the
 * specification's at the mapped state. The measure can be left apart. */
enum asked { ALL, ALL_BUT_MEASURE };
struct missing first_missing(const struct table *t, const struct state *s, enum asked asked);

/* What the part is called; and which line and part has no value, and why. */
const char *part_word(enum part part);
void print_missing(struct output *out, const struct table *t, const struct missing *m);

/* Writes the remainder by zero in infix. */
void print_gap(struct output *out, const struct table *t, const struct missing *m);

/* The number of its row, counted from 1; and whether that is the specification's. */
unsigned missing_row(const struct missing *m);
bool missing_is_ours(const struct table *t, const struct missing *m);

#endif
