/* The transition system of one side: states and the steps between them. */
#ifndef GRAPH_H
#define GRAPH_H

#include "missing.h"
#include "show.h"
#include "state.h"

/* A specification that reaches more states than an implementation can have has some to which none is mapped: no such table is accepted. */
enum { MOST_STATES = MAX_STATES, MOST_DRAWN = 1000 };

/* Where a step leads: to a state that was found, to one that is not looked at, outside, or nowhere, as it lacks a value. */
enum leads { TO_FOUND, BEYOND, OUT_OF_SIZES, OUT_OF_INVARIANT, NO_CONDITION, NO_DATA, NO_NEXT };

/* A transition. Steps with the same label and the same end are one, which is marked if one of them is. */
struct edge {
    enum leads leads;
    unsigned action, data; /* data: NO_VALUE if they lack it, or it isn't known */
    uint32_t to;           /* the state that was found */
    struct state end;      /* the state outside */
    unsigned row;          /* one of its rows, counted from 1 */
    bool marked, failing;
};

struct graph {
    const struct table *t;
    const struct process *p;
    enum side side;
    struct state *state; /* those found */
    uint32_t states;
    uint32_t *slot;      /* a hash table: 0, or one more than the place of a state */
    bool too_many;       /* a state more than there may be was to be found */
    uint32_t most;       /* how many states may be found */
    unsigned long transitions;
    uint32_t failing_state;            /* the place of the state whose step fails, and the step; its row is 0 if there is none */
    unsigned failing_row, failing_sum;
    struct edge edge[MAX_ROWS * MAX_SPAN + 1]; /* those of one state */
    size_t edges;
};

struct graph *graph_of(const struct table *t, enum side side, uint32_t most);
void graph_free(struct graph *g);

/* Whether a state is within the sizes, and on the implementation's side within the invariant. */
bool within(const struct graph *g, const struct state *s);

/* The place of a state, a new one if it wasn't found before; and whether it was. */
uint32_t found(struct graph *g, const struct state *s);
bool was_found(const struct graph *g, const struct state *s, uint32_t *at);

/* Finds the transitions that start in a state, sorted by their labels. With GROWING the states that they lead to are found. */
enum growth { FIXED, GROWING };
void leave(struct graph *g, uint32_t from, enum growth growth);

/* Finds every state that the initial state reaches. Gives NULL, or why it can't. */
const char *find_reached(struct graph *g);

/* Of an implementation, finds the states that so many steps lead to from the state with this number, and those from which so many lead to
 * it. Gives NULL, or why it can't. */
const char *find_around(struct graph *g, unsigned long number, unsigned steps);

#endif
