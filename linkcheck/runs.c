/* Runs from the initial state: the nearest states first, in the order of rows and sum values. */
#define _POSIX_C_SOURCE 200809L
#include "runs.h"
#include "watch.h"

#include <stdlib.h>

/* ---- single steps ---- */

static const struct row *row_from(const struct table *t, const struct stop *from) {
    return &t->impl.row[from->row - 1];
}

/* Whether a step is followed: it is enabled, has its data and next values, and leads inside the sizes; its end then. */
static bool leads_on(const struct table *t, const struct row_look *look, unsigned *end) {
    const struct state next = next_of(look);
    if (look->told[LOOK_CONDITION] != LOOK_HOLDS || look->told[LOOK_DATA] == LOOK_NO_VALUE) return false;
    if (outside(&t->impl, &next) < t->impl.parameters) return false;
    *end = (unsigned)state_number(&t->impl, &next);
    return true;
}

static struct row_look look_from(const struct table *t, const struct stop *from) {
    const struct state s = numbered_state(&t->impl, from->state);
    return row_at(row_from(t, from), &s, from->sum);
}

struct state step_end(const struct table *t, const struct stop *from) {
    const struct row_look look = look_from(t, from);
    return next_of(&look);
}

/* ---- the search ---- */

/* The states in the order in which they were found, and for each by its number the step by which; row 0 if it wasn't. */
struct search {
    unsigned *found;
    struct stop *before;
    size_t count;
};

static void find_from(const struct table *t, struct search *g, unsigned from) {
    const struct state s = numbered_state(&t->impl, from);
    for (const struct row *row = t->impl.row; row < t->impl.row + t->impl.rows; row++)
        for (unsigned sum = 0; sum < row->sums; sum++) {
            const struct row_look look = row_at(row, &s, sum);
            unsigned end;
            if (!leads_on(t, &look, &end) || g->before[end].row) continue;
            g->before[end] = (struct stop){from, row->number, sum};
            g->found[g->count++] = end;
        }
}

/* The initial state counts as found by a step of its own, which is no part of a run. Gives whether the search came to its end before the
 * table's time was over. */
static bool find(const struct table *t, struct search *g, unsigned start, unsigned wanted) {
    g->before[start].row = 1;
    g->found[g->count++] = start;
    for (size_t i = 0; i < g->count && !g->before[wanted].row; i++) {
        if (time_is_over()) return false;
        find_from(t, g, g->found[i]);
    }
    return true;
}

static void gather(struct run *r, const struct search *g, unsigned start) {
    for (unsigned at = r->end; at != start; at = g->before[at].state) r->length++;
    r->stop = malloc((r->length + 1) * sizeof *r->stop);
    if (!r->stop) no_memory();
    size_t i = r->length;
    for (unsigned at = r->end; at != start; at = g->before[at].state) r->stop[--i] = g->before[at];
}

/* From the initial state each step leads to the next, and the last to the end. */
static bool holds(const struct table *t, const struct run *r, unsigned start) {
    unsigned at = start;
    for (size_t i = 0; i < r->length; i++) {
        const struct stop *stop = &r->stop[i];
        if (stop->state != at || stop->row < 1 || stop->row > t->impl.rows || stop->sum >= row_from(t, stop)->span) return false;
        const struct row_look look = look_from(t, stop);
        if (!leads_on(t, &look, &at)) return false;
    }
    return at == r->end;
}

struct run run_to(const struct table *t, unsigned state) {
    const size_t states = state_count(&t->impl);
    const struct state initial = initial_state(&t->impl);
    const unsigned start = (unsigned)state_number(&t->impl, &initial);
    struct search g = {calloc(states, sizeof *g.found), calloc(states, sizeof *g.before), 0};
    struct run r = {.end = state};
    if (!g.found || !g.before) no_memory();
    const bool ended = find(t, &g, start, state);
    r.unreached = ended && !g.before[state].row;
    if (ended && !r.unreached) gather(&r, &g, start);
    r.reached = ended && !r.unreached && holds(t, &r, start);
    free(g.found);
    free(g.before);
    return r;
}

void run_free(struct run *r) {
    free(r->stop);
    *r = (struct run){0};
}

/* ---- in words ---- */

/* A run of more steps than MOST_SHOWN has its first and its last END_SHOWN on a line. */
enum { MOST_SHOWN = 12, END_SHOWN = 4 };

void print_step_label(struct output *out, const struct table *t, const struct stop *from) {
    const struct row *row = row_from(t, from);
    if (row->action == INTERNAL) put(out, "tau");
    else print(out, "a%u(%u)", row->action, look_from(t, from).told[LOOK_DATA]);
}

static void print_steps(struct output *out, const struct table *t, const struct run *r, size_t first, size_t last) {
    for (size_t i = first; i < last; i++) {
        const struct state s = numbered_state(&t->impl, r->stop[i].state);
        print_state(out, &t->impl, &s);
        put(out, " -");
        print_step_label(out, t, &r->stop[i]);
        put(out, "-> ");
    }
}

void print_run(struct output *out, const struct table *t, const struct run *r) {
    const struct state end = numbered_state(&t->impl, r->end);
    if (r->length > MOST_SHOWN) {
        print_steps(out, t, r, 0, END_SHOWN);
        print(out, ".. %zu steps more .. ", r->length - 2 * END_SHOWN);
        print_steps(out, t, r, r->length - END_SHOWN, r->length);
    } else {
        print_steps(out, t, r, 0, r->length);
    }
    print_state(out, &t->impl, &end);
}

void print_whole_run(struct output *out, const struct table *t, const struct run *r) {
    const struct state end = numbered_state(&t->impl, r->end);
    for (size_t i = 0; i < r->length; i++) {
        const struct state s = numbered_state(&t->impl, r->stop[i].state);
        put(out, "\n  ");
        print_numbered(out, &t->impl, &s);
        print(out, ", row %u, sum value %u: ", r->stop[i].row, r->stop[i].sum);
        print_step_label(out, t, &r->stop[i]);
        put(out, " ->");
    }
    put(out, "\n  ");
    print_numbered(out, &t->impl, &end);
}
