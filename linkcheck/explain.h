/* A verdict in words. */
#ifndef EXPLAIN_H
#define EXPLAIN_H

#include "faults.h"
#include "missing.h"
#include "output.h"
#include "runs.h"
#include "verdict.h"

/* The criteria by what they ask for. The last one is tried before the others in a state. */
enum { START = 1, MAPPED_VALUES, KEEPS_INVARIANT, KEEPS_MAPPING, SMALLER_MEASURE, ALLOWED, OFFERED, DATA, NEXT, VALUES };

/* What a criterion, 1 to 10, is about. */
const char *criterion_word(unsigned criterion);

/* Whether the row of a failure is the specification's, and that row; NULL for row 0. */
bool row_is_ours(const struct failure *f);
const struct row *failing_row(const struct table *t, const struct failure *f);

/* A failure with what there is to tell of it. */
struct here {
    const struct table *t;
    const struct failure *f;
    struct state state, mapped; /* the failing state, and where it is mapped to */
    const struct row *row;      /* the failing one, at the mapped state if it is ours; NULL if there is none */
    const struct row *other;    /* of a visible row: the other side's row of its action; NULL if there is none */
    struct state next;          /* where the failing row leads */
    struct missing missing;     /* what is missing, where a criterion fails by that; else its part is NOTHING */
};
struct here here_of(const struct table *t, const struct failure *f);

/* Where the terms of a row are evaluated: the board's in the failing state, ours in the mapped one. */
struct point point_of(const struct here *h, const struct row *row);
char row_letter(const struct row *row);

/* The first formula that fails of those which another joins by `and`. */
struct culprit {
    term at; /* NULL if there is none */
    char letter;
    struct point point;
};
struct culprit culprit_in(term f, char letter, struct point p);

/* That of the invariant, or of the other row's condition, where a criterion fails by it. */
struct culprit culprit_of(const struct here *h);

/* Writes it, as ": p1 < 3 fails with p1 = 3"; nothing if there is none. */
void print_culprit(struct output *out, const struct culprit *c);

/* A shortest run to the failing state. Criterion 1 is about the initial state: nothing is looked for. */
struct run run_of(const struct here *h);

/* What differs where a criterion fails, or is missing, in words; the place with it; and whether and how the state is reached. */
void print_difference(struct output *out, const struct here *h);
void print_failure(struct output *out, const struct table *t, const struct failure *f);

/* The verdict: one line's words, without byte 10. */
void print_verdict(struct output *out, const struct verdict *v);

/* The same, with the whole run to a failing state, each of its states on a line of its own. */
void print_whole_verdict(struct output *out, const struct verdict *v);

#endif
