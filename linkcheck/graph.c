/* The transition system of one side. Where a row's condition, data or next values have no value there is no transition. */
#define _POSIX_C_SOURCE 200809L
#include "graph.h"
#include "terms.h"

#include <stdlib.h>

enum { SLOTS = 2 * MOST_STATES };

/* ---- states ---- */

static size_t hash(const struct state *s) {
    uint64_t h = 0;
    for (int i = 0; i < MAX_PARAMETERS; i++) {
        h = (h + s->value[i] + 1) * 0x9E3779B97F4A7C15u;
        h ^= h >> 32;
    }
    return h % SLOTS;
}

/* The slot of a state, or the one where it is to be. */
static size_t slot_of(const struct graph *g, const struct state *s) {
    size_t at = hash(s);
    while (g->slot[at] && !same_state(g->p, &g->state[g->slot[at] - 1], s)) at = (at + 1) % SLOTS;
    return at;
}

bool was_found(const struct graph *g, const struct state *s, uint32_t *at) {
    const uint32_t slot = g->slot[slot_of(g, s)];
    *at = slot ? slot - 1 : 0;
    return slot;
}

uint32_t found(struct graph *g, const struct state *s) {
    const size_t at = slot_of(g, s);
    if (g->slot[at]) return g->slot[at] - 1;
    if (g->states == g->most) {
        g->too_many = true;
        return 0;
    }
    g->state[g->states] = *s;
    g->slot[at] = ++g->states;
    return g->states - 1;
}

bool within(const struct graph *g, const struct state *s) {
    return outside(g->p, s) == g->p->parameters && (g->side == SPECIFICATION || invariant_holds(g->t, s));
}

struct graph *graph_of(const struct table *t, enum side side, uint32_t most) {
    struct graph *g = calloc(1, sizeof *g);
    if (!g) no_memory();
    *g = (struct graph){.t = t, .p = side == IMPLEMENTATION ? &t->impl : &t->spec, .side = side, .most = most};
    g->state = malloc(MOST_STATES * sizeof *g->state);
    g->slot = calloc(SLOTS, sizeof *g->slot);
    if (!g->state || !g->slot) no_memory();
    return g;
}

void graph_free(struct graph *g) {
    free(g->state);
    free(g->slot);
    free(g);
}

/* ---- transitions ---- */

static int by_state(const struct state *a, const struct state *b) {
    for (int i = 0; i < MAX_PARAMETERS; i++)
        if (a->value[i] != b->value[i]) return a->value[i] < b->value[i] ? -1 : 1;
    return 0;
}

static int by_label(const void *a, const void *b) {
    const struct edge *x = a, *y = b;
    if (x->action != y->action) return x->action < y->action ? -1 : 1;
    if (x->data != y->data) return x->data < y->data ? -1 : 1;
    if (x->leads != y->leads) return x->leads < y->leads ? -1 : 1;
    if (x->to != y->to) return x->to < y->to ? -1 : 1;
    return by_state(&x->end, &y->end);
}

/* Leaves each of the sorted edges once. */
static size_t distinct(struct edge *edge, size_t count) {
    size_t kept = 0;
    for (size_t i = 0; i < count; i++) {
        if (kept == 0 || by_label(&edge[kept - 1], &edge[i]) != 0) {
            edge[kept++] = edge[i];
        } else {
            edge[kept - 1].marked |= edge[i].marked;
            edge[kept - 1].failing |= edge[i].failing;
        }
    }
    return kept;
}

static bool has_values(const struct process *p, const struct state *s) {
    unsigned i = 0;
    while (i < p->parameters && s->value[i] != NO_VALUE) i++;
    return i == p->parameters;
}

/* The transition of an enabled row. */
static struct edge edge_of(struct graph *g, const struct state *s, const struct row *row, unsigned sum, enum growth growth) {
    const struct state next = next_state(g->p, row, s, sum), nowhere = {{0}};
    struct edge e = {.action = row->action, .data = data_number(row, s, sum), .end = nowhere, .row = (unsigned)(row - g->p->row) + 1};
    e.marked = row->action == INTERNAL && marked(row, s, sum);
    if (e.data == NO_VALUE) {
        e.leads = NO_DATA;
    } else if (!has_values(g->p, &next)) {
        e.leads = NO_NEXT;
    } else if (!within(g, &next)) {
        e.leads = outside(g->p, &next) < g->p->parameters ? OUT_OF_SIZES : OUT_OF_INVARIANT;
        e.end = next;
    } else if (growth == GROWING) {
        e.to = found(g, &next);
    } else if (!was_found(g, &next, &e.to)) {
        e.leads = BEYOND;
    }
    return e;
}

void leave(struct graph *g, uint32_t from, enum growth growth) {
    const struct state s = g->state[from];
    g->edges = 0;
    for (unsigned r = 0; r < g->p->rows; r++) {
        const struct row *row = &g->p->row[r];
        for (unsigned sum = 0; sum < row->span; sum++) {
            if (!enabled(row, &s, sum)) continue;
            struct edge e = edge_of(g, &s, row, sum, growth);
            e.failing = g->failing_row == r + 1 && g->failing_sum == sum && g->failing_state == from;
            g->edge[g->edges++] = e;
        }
    }
    qsort(g->edge, g->edges, sizeof *g->edge, by_label);
    g->edges = distinct(g->edge, g->edges);
}

/* ---- which states ---- */

const char *find_reached(struct graph *g) {
    const struct state start = initial_state(g->p);
    if (!within(g, &start))
        return missing_invariant(g->t, &start).part ? "the invariant has no value in the initial state, so that no state is within it"
                                                    : "the invariant does not hold in the initial state, so that no state is within it";
    found(g, &start);
    for (uint32_t from = 0; from < g->states; from++) {
        leave(g, from, GROWING);
        for (size_t i = 0; i < g->edges; i++) g->transitions += g->edge[i].leads == TO_FOUND;
        if (g->too_many)
            return g->most == MOST_STATES ? "over 65,536 states, which is more than an implementation can have"
                                          : "over 1,000 states, which is too many for a picture; --around STATE draws what is around one, "
                                            "--aut writes all";
    }
    return NULL;
}

/* Whether a step leads from the state to one that has this distance. */
static bool leads_to(const struct graph *g, const struct state *s, const uint8_t *distance, uint8_t wanted) {
    for (const struct row *row = g->p->row; row < g->p->row + g->p->rows; row++)
        for (unsigned sum = 0; sum < row->span; sum++) {
            if (!enabled(row, s, sum)) continue;
            const struct state next = next_state(g->p, row, s, sum);
            if (outside(g->p, &next) == g->p->parameters && distance[state_number(g->p, &next)] == wanted) return true;
        }
    return false;
}

/* The states from which so many steps lead to the first one: a pass over all states for each step. */
static void find_before(struct graph *g, unsigned long number, unsigned steps) {
    const unsigned long count = state_count(g->p);
    uint8_t *distance = calloc(count, 1); /* one more than it is; 0 if it isn't known */
    if (!distance) no_memory();
    distance[number] = 1;
    for (unsigned step = 1; step <= steps && !g->too_many; step++)
        for (unsigned long k = 0; k < count; k++) {
            const struct state s = numbered_state(g->p, k);
            if (distance[k] || !within(g, &s) || !leads_to(g, &s, distance, (uint8_t)step)) continue;
            distance[k] = (uint8_t)(step + 1);
            found(g, &s);
        }
    free(distance);
}

const char *find_around(struct graph *g, unsigned long number, unsigned steps) {
    if (number >= state_count(g->p)) return "there is no state with the number that --around gives";
    const struct state centre = numbered_state(g->p, number);
    if (!within(g, &centre)) return "the invariant does not hold in the state that --around gives";
    found(g, &centre);
    uint32_t from = 0;
    for (unsigned step = 0; step < steps && !g->too_many; step++)
        for (const uint32_t end = g->states; from < end; from++) leave(g, from, GROWING);
    if (!g->too_many) find_before(g, number, steps);
    return g->too_many ? "over 1,000 states around this one, which is too many for a picture; --around STATE,1 draws fewer" : NULL;
}
