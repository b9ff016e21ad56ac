/* Transition systems in the Aldebaran format: the states that the initial state reaches, numbered as they are found. */
#define _POSIX_C_SOURCE 200809L
#include "graph.h"

static void print_transitions(struct output *out, const struct graph *g, uint32_t from) {
    for (size_t i = 0; i < g->edges; i++) {
        const struct edge *e = &g->edge[i];
        if (e->leads != TO_FOUND) continue;
        if (e->action == INTERNAL) print(out, "(%lu,\"tau\",%lu)\n", (unsigned long)from, (unsigned long)e->to);
        else print(out, "(%lu,\"a%u(%u)\",%lu)\n", (unsigned long)from, e->action, e->data, (unsigned long)e->to);
    }
}

static void print_aut(struct output *out, struct graph *g) {
    print(out, "des (0,%lu,%lu)\n", g->transitions, (unsigned long)g->states);
    for (uint32_t from = 0; from < g->states; from++) {
        leave(g, from, FIXED);
        print_transitions(out, g, from);
    }
}

/* A state of the specification has no number in reports. */
static void print_states(struct output *out, struct graph *g) {
    for (uint32_t n = 0; n < g->states; n++) {
        print(out, "%lu ", (unsigned long)n);
        if (g->side == IMPLEMENTATION) print(out, "%lu ", state_number(g->p, &g->state[n]));
        print_state(out, g->p, &g->state[n]);
        put(out, "\n");
    }
}

static const char *write_reached(struct output *out, const struct table *t, enum side side,
                                 void (*print_it)(struct output *, struct graph *)) {
    struct graph *g = graph_of(t, side, MOST_STATES);
    const char *why = find_reached(g);
    if (!why) print_it(out, g);
    graph_free(g);
    return why;
}

const char *write_aut(struct output *out, const struct table *t, enum side side) {
    return write_reached(out, t, side, print_aut);
}

const char *write_aut_states(struct output *out, const struct table *t, enum side side) {
    return write_reached(out, t, side, print_states);
}
