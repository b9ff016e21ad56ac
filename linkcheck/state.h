/* States of a process and the steps of its rows. */
#ifndef STATE_H
#define STATE_H

#include "output.h"
#include "table.h"
#include "terms.h"

#include <stdbool.h>

/* Holds a table that was read without a fault, so that its states and rows can be looked at by the functions below. Gives whether
 * hold_design has read the text as linkcheck did. */
bool table_hold(struct table *t, const uint8_t *text, size_t len);

/* One value for each parameter of a process, and 0 after the last; NO_VALUE where a step or the mapping lacks it. No term is evaluated in
 * such a state. */
struct state {
    unsigned value[MAX_PARAMETERS];
};

struct state initial_state(const struct process *p);

/* The state with this number, and the number of a state that is inside the sizes: mixed radix, the first parameter most significant. */
struct state numbered_state(const struct process *p, unsigned long number);
unsigned long state_number(const struct process *p, const struct state *s);

/* How many states there are within the sizes; of an implementation at most MAX_STATES. */
unsigned long state_count(const struct process *p);

bool same_state(const struct process *p, const struct state *a, const struct state *b);

/* The first parameter whose value is not below its size, or is missing; the number of parameters if there is none. */
unsigned outside(const struct process *p, const struct state *s);

/* What look_state tells of a state of the implementation, and look_row of a row at a state of its process. */
struct state_look {
    uint32_t told[LOOK_STATE_PLACES];
};
struct row_look {
    uint32_t told[LOOK_ROW_PLACES];
};
struct state_look state_at(const struct table *t, const struct state *s);
struct row_look row_at(const struct row *r, const struct state *s, unsigned sum);

/* The next state that it tells of. */
struct state next_of(const struct row_look *look);

/* Where the terms of a row, or outside rows, are evaluated in a state. */
struct point point_at(const struct table *t, const struct state *s, unsigned sum);

/* Whether a criterion, 2 to 9, holds for a row and a sum value in a state where the invariant holds and nothing is without a value. */
bool criterion_holds(const struct table *t, const struct state *s, unsigned criterion, unsigned row, unsigned sum);

/* Whether the condition has a value and holds. */
bool enabled(const struct row *r, const struct state *s, unsigned sum);
struct state next_state(const struct process *p, const struct row *r, const struct state *s, unsigned sum);
unsigned data_number(const struct row *r, const struct state *s, unsigned sum);

/* The row of a visible action; NULL if there is none. */
const struct row *row_of(const struct process *p, unsigned action);

/* Whether the step of an enabled internal row is marked: its mark has a value and holds. */
bool marked(const struct row *r, const struct state *s, unsigned sum);

/* A row for a sum value. */
struct step {
    const struct row *row;
    unsigned sum;
};

/* The first internal step that is enabled, marked or not; its row is NULL if there is none. */
struct step first_internal_step(const struct process *p, const struct state *s);

/* Moves on to the first marked step from the state that is not before `at`. Gives whether there is one. */
bool marked_step(const struct process *p, const struct state *s, struct step *at);

/* No marked step is enabled. */
bool focus_point(const struct process *p, const struct state *s);

/* The first internal step that is enabled but not marked; its row is NULL if there is none. */
struct step unmarked_step(const struct process *p, const struct state *s);

/* Whether the invariant has a value and holds. */
bool invariant_holds(const struct table *t, const struct state *s);

/* Criterion 3 of a step that leads there: it is inside the sizes, and the invariant holds. */
bool keeps_invariant(const struct table *t, const struct state *next);
struct state mapped(const struct table *t, const struct state *s);
unsigned measure(const struct table *t, const struct state *s);

/* Whether none of the values is missing. */
bool is_whole(const struct process *p, const struct state *s);

/* Writes the values, none of which is missing, as (2, 1); and with the number, if they are inside the sizes, as state 9 = (2, 1). */
void print_state(struct output *out, const struct process *p, const struct state *s);
void print_numbered(struct output *out, const struct process *p, const struct state *s);

#endif
