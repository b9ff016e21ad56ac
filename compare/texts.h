// Texts made from a seed: designs, those that try again, those about measures and those that divide among them, with and without marks;
// changed and damaged ones; and what is long.
#ifndef TEXTS_H
#define TEXTS_H
#include <stdint.h>
#include <stdio.h>
#include <stdlib.h>
#include <string.h>

enum { ROOM = 40000, POOL = 3000 };

struct text {
    uint8_t bytes[ROOM];
    size_t len;
};

// Stored tables, from which others are made, and the places of those that are accepted, and of those of them that have marks.
struct pool {
    struct text table[POOL];
    int tables, good[POOL], accepted, good_marked[POOL], marked;
};

static uint64_t seed;

static uint64_t rnd(uint64_t below) {
    seed ^= seed << 13;
    seed ^= seed >> 7;
    seed ^= seed << 17;
    return (seed * 0x2545F4914F6CDD1DULL >> 32) % below;
}

// Texts from numbers.

static void put(struct text *t, const void *bytes, size_t n) {
    if (t->len + n > ROOM) return;
    memcpy(t->bytes + t->len, bytes, n);
    t->len += n;
}

// Some bytes, none or more, in place of others.
static void splice(struct text *t, size_t at, size_t gone, const void *bytes, size_t n) {
    if (at > t->len) at = t->len;
    if (gone > t->len - at) gone = t->len - at;
    if (t->len - gone + n > ROOM) return;
    memmove(t->bytes + at + n, t->bytes + at + gone, t->len - at - gone);
    memcpy(t->bytes + at, bytes, n);
    t->len = t->len - gone + n;
}

static void add(struct text *t, const struct text *part) { put(t, part->bytes, part->len); }

static void field(struct text *t, unsigned n) {
    char columns[16];
    snprintf(columns, sizeof columns, "%6u", n % 65536);
    put(t, columns, 6);
}

static void fields(struct text *t, int n, const unsigned *list) {
    for (int i = 0; i < n; i++) field(t, list[i]);
}

static void line_end(struct text *t) { put(t, "\n", 1); }

static void formula(struct text *t, int depth, unsigned params, int row);

static unsigned number(void) {
    static const unsigned edges[] = {0, 1, 2, 3, 4, 7, 8, 255, 256, 257, 32767, 32768, 65534, 65535};
    return rnd(4) ? rnd(5) : rnd(3) ? edges[rnd(14)] : rnd(65536);
}

static void value(struct text *t, int depth, unsigned params, int row) {
    unsigned pick = depth < 2 ? rnd(3) : rnd(8);
    if (pick == 2 && !row) pick = 1;
    switch (pick) {
    case 0: field(t, 0); field(t, number()); break;
    case 1: field(t, 1); field(t, rnd(params)); break;
    case 2: field(t, 2); break;
    case 6: field(t, 6); formula(t, depth - 1, params, row);
        value(t, depth - 1, params, row); value(t, depth - 1, params, row); break;
    default: field(t, pick == 7 ? 5 : pick); value(t, depth - 1, params, row);
        if (pick == 7) fields(t, 2, (unsigned[]){0, 1 + rnd(5)}); else value(t, depth - 1, params, row);
    }
}

static void formula(struct text *t, int depth, unsigned params, int row) {
    unsigned pick = depth < 2 ? 10 + rnd(2) * (rnd(3) == 0) : 10 + rnd(7);
    field(t, pick);
    switch (pick) {
    case 12: case 13: value(t, depth - 1, params, row); value(t, depth - 1, params, row); break;
    case 14: formula(t, depth - 1, params, row); break;
    case 15: case 16: formula(t, depth - 1, params, row); formula(t, depth - 1, params, row); break;
    }
}

// A value of one parameter of a size, in it for certain unless odd.
static void within(struct text *t, unsigned size, unsigned params, int odd) {
    if (odd) { value(t, 3, params, 1); return; }
    if (rnd(3) == 0) { field(t, 0); field(t, rnd(size)); return; }
    field(t, 5);
    value(t, 1 + rnd(3), params, 1);
    field(t, 0);
    field(t, size);
}

// Rows that both processes have, beside internal ones that move a last parameter down; parts go wrong now and then.
static void related(struct text *t) {
    unsigned k = 1 + rnd(3), phases = 1 + rnd(4), rows = rnd(5), internal = rnd(3), size[8], span[8], wrong = rnd(3) ? 1 + rnd(13) : 0;
    t->len = 0;
    for (unsigned i = 0; i < k; i++) size[i] = 1 + rnd(4);
    unsigned initial[8];
    for (unsigned i = 0; i < k; i++) { initial[i] = rnd(size[i]); fields(t, 3, (unsigned[]){1, size[i], initial[i]}); line_end(t); }
    fields(t, 3, (unsigned[]){1, phases, rnd(phases)}); line_end(t);
    for (unsigned i = 0; i < k; i++) {
        fields(t, 3, (unsigned[]){2, wrong == 1 ? 1 + rnd(size[i]) : size[i], wrong == 2 ? 0 : initial[i]});
        line_end(t);
    }
    struct text body[8];
    for (unsigned r = 0; r < rows; r++) {
        body[r].len = 0;
        span[r] = rnd(8) ? 1 + rnd(4) : 1 + rnd(256);
        formula(&body[r], 1 + rnd(4), k, 1);
        value(&body[r], 1 + rnd(4), k, 1);
        for (unsigned i = 0; i < k; i++) within(&body[r], size[i], k, wrong == 3 && rnd(4) == 0);
    }
    for (unsigned r = 0; r < rows; r++) {
        if (wrong == 4 && rnd(rows) == 0) continue;
        fields(t, 3, (unsigned[]){3, r + 1, span[r]});
        put(t, body[r].bytes, body[r].len);
        if (rnd(2)) { fields(t, 2, (unsigned[]){1, k}); } else within(t, phases, k + 1, wrong == 5);
        line_end(t);
    }
    for (unsigned r = 0; r < internal; r++) {
        unsigned phase = 1 + rnd(phases);
        fields(t, 3, (unsigned[]){3, 0, 1 + rnd(3)});
        if (rnd(2)) { field(t, 15); formula(t, 2, k + 1, 1); }
        fields(t, 5, (unsigned[]){12, 1, k, 0, phase});
        fields(t, 2, (unsigned[]){0, 0});
        for (unsigned i = 0; i < k; i++) {
            if (wrong == 6 && rnd(3) == 0) within(t, size[i], k + 1, 0); else fields(t, 2, (unsigned[]){1, i});
        }
        fields(t, 2, (unsigned[]){0, wrong == 7 ? phase : phase - 1});
        line_end(t);
    }
    for (unsigned r = rows; r-- > 0;) {
        if (wrong == 8 && rnd(rows) == 0) continue;
        fields(t, 3, (unsigned[]){4, r + 1, wrong == 9 && rnd(3) == 0 ? 1 + rnd(4) : span[r]});
        if (wrong == 10 && rnd(2)) {
            formula(t, 2, k, 1);
            value(t, 2, k, 1);
            for (unsigned i = 0; i < k; i++) within(t, size[i], k, 0);
        } else {
            put(t, body[r].bytes, body[r].len);
        }
        line_end(t);
    }
    field(t, 5);
    if (wrong == 11) formula(t, 4, k + 1, 0);
    else if (rnd(2)) field(t, 10);
    else fields(t, 5, (unsigned[]){13, 1, k, 0, phases});
    line_end(t);
    field(t, 6);
    for (unsigned i = 0; i < k; i++) { if (wrong == 12) value(t, 3, k + 1, 0); else fields(t, 2, (unsigned[]){1, i}); }
    line_end(t);
    field(t, 7);
    if (wrong == 13) value(t, 3, k + 1, 0); else fields(t, 2, (unsigned[]){1, k});
    line_end(t);
}

// Any terms in a table of the right shape.
static void shaped(struct text *t) {
    unsigned k = 1 + rnd(3), m = 1 + rnd(3);
    t->len = 0;
    for (unsigned i = 0; i < k; i++) { unsigned s = 1 + rnd(5); fields(t, 3, (unsigned[]){1, s, rnd(s)}); line_end(t); }
    for (unsigned i = 0; i < m; i++) { unsigned s = 1 + rnd(5); fields(t, 3, (unsigned[]){2, s, rnd(s)}); line_end(t); }
    for (unsigned kind = 3; kind < 5; kind++) {
        unsigned rows = rnd(4), params = kind == 3 ? k : m;
        for (unsigned r = 0; r < rows; r++) {
            unsigned action = kind == 3 && rnd(3) == 0 ? 0 : r + 1;
            fields(t, 3, (unsigned[]){kind, action, 1 + rnd(3)});
            formula(t, 1 + rnd(4), params, 1);
            if (action) value(t, 1 + rnd(4), params, 1); else fields(t, 2, (unsigned[]){0, 0});
            for (unsigned i = 0; i < params; i++) value(t, 1 + rnd(3), params, 1);
            line_end(t);
        }
    }
    field(t, 5); formula(t, 1 + rnd(4), k, 0); line_end(t);
    field(t, 6); for (unsigned i = 0; i < m; i++) value(t, 1 + rnd(3), k, 0);
    line_end(t);
    field(t, 7); value(t, 1 + rnd(4), k, 0); line_end(t);
}

// Designs that try again. The last parameter is a phase, and visible rows wait for phase 0. From a phase above it an internal row leads on,
// to a lower phase, where its goal holds, else back or nowhere; its mark is its goal. Other internal rows lead anywhere, unmarked.

enum { MOST_ROWS = 12 };

struct trial {
    unsigned k, phases, size[4], initial[4], wrong, rows, wrong_row;
    struct text line[MOST_ROWS], mark[MOST_ROWS]; // a visible row has no mark
};

// What is wrong with a trial, if anything.
enum wrong {
    RIGHT, MORE_MARKED, LESS_MARKED, MARKS_SWAPPED, MARKS_LEFT_OUT, STRAYS, LEAVES, NOT_ENABLED, OTHER_SPEC, OTHER_MEASURE,
    OTHER_INVARIANT, WRONGS
};

// What is wrong with the row that is made now.
static unsigned wrong_here(const struct trial *d) { return d->rows == d->wrong_row ? d->wrong : RIGHT; }

// Holds for one sum value or more; seldom any formula.
static void goal(struct text *t, unsigned span, unsigned params) {
    unsigned pick = rnd(8);
    if (pick == 0) formula(t, 1 + rnd(3), params, 1);
    else if (pick < 3) fields(t, 4, (unsigned[]){13, 2, 0, 1 + rnd(span)});
    else if (pick == 3 && span > 1) fields(t, 5, (unsigned[]){14, 12, 2, 0, rnd(span)});
    else fields(t, 4, (unsigned[]){12, 2, 0, rnd(span)});
}

// The goal, or a formula that holds where it does and elsewhere, or only where it does.
static void mark_of(struct text *t, const struct text *held, unsigned wrong, unsigned params) {
    int more = wrong == MORE_MARKED, differs = more || wrong == LESS_MARKED;
    if (differs && rnd(2)) { field(t, more ? 10 : 11); return; }
    if (differs) { field(t, more ? 16 : 15); formula(t, 1 + rnd(3), params, 1); }
    else if (rnd(6) == 0) fields(t, 2, (unsigned[]){14, 14});
    add(t, held);
}

// The parameters that both processes have keep their values, but for one that strays.
static void kept(struct text *t, const struct trial *d, int strays) {
    unsigned which = rnd(d->k);
    for (unsigned i = 0; i < d->k; i++) {
        if (strays && i == which) within(t, d->size[i], d->k + 1, 0); else fields(t, 2, (unsigned[]){1, i});
    }
}

// Back to some phase, or nowhere; out of the sizes if it leaves.
static void back(struct text *t, const struct trial *d, int leaves) {
    if (leaves) fields(t, 5, (unsigned[]){3, 1, d->k, 0, d->phases - rnd(2)});
    else if (rnd(2)) fields(t, 2, (unsigned[]){1, d->k});
    else fields(t, 2, (unsigned[]){0, rnd(d->phases)});
}

// From this phase, or from each above 0 if it is 0.
static void leading_row(struct trial *d, unsigned phase) {
    struct text *line = &d->line[d->rows], held = {.len = 0};
    unsigned span = 1 + rnd(4), wrong = wrong_here(d);
    goal(&held, span, d->k + 1);
    fields(line, 3, (unsigned[]){3, 0, span});
    if (phase) fields(line, 5, (unsigned[]){12, 1, d->k, 0, phase}); else fields(line, 5, (unsigned[]){13, 0, 0, 1, d->k});
    fields(line, 2, (unsigned[]){0, 0});
    kept(line, d, wrong == STRAYS);
    field(line, 6);
    add(line, &held);
    if (phase) fields(line, 2, (unsigned[]){0, rnd(phase)}); else fields(line, 5, (unsigned[]){4, 1, d->k, 0, 1});
    back(line, d, wrong == LEAVES);
    mark_of(&d->mark[d->rows++], &held, wrong, d->k + 1);
}

// Anywhere, unmarked: never marked, or only where it is not enabled.
static void other_row(struct trial *d) {
    struct text *line = &d->line[d->rows], *mark = &d->mark[d->rows], condition = {.len = 0};
    unsigned wrong = wrong_here(d);
    formula(&condition, 1 + rnd(3), d->k + 1, 1);
    fields(line, 3, (unsigned[]){3, 0, 1 + rnd(3)});
    add(line, &condition);
    fields(line, 2, (unsigned[]){0, 0});
    kept(line, d, wrong == STRAYS);
    back(line, d, wrong == LEAVES);
    if (wrong == MORE_MARKED) formula(mark, 1 + rnd(3), d->k + 1, 1);
    else if (rnd(2)) field(mark, 11);
    else { field(mark, 14); add(mark, &condition); }
    d->rows++;
}

// Data and next values that both processes have.
static void shared_values(struct text *t, const struct trial *d) {
    value(t, 1 + rnd(3), d->k, 1);
    for (unsigned i = 0; i < d->k; i++) within(t, d->size[i], d->k, 0);
}

// The implementation's row, in phase 0 or everywhere, and the specification's.
static void visible_row(struct trial *d, unsigned action, struct text *spec) {
    struct text *line = &d->line[d->rows], condition = {.len = 0}, rest = {.len = 0};
    unsigned span = 1 + rnd(4), wrong = wrong_here(d);
    formula(&condition, 1 + rnd(3), d->k, 1);
    shared_values(&rest, d);
    fields(line, 3, (unsigned[]){3, action, span});
    if (wrong == NOT_ENABLED) { field(line, 15); formula(line, 2, d->k + 1, 1); }
    if (rnd(8)) fields(line, 6, (unsigned[]){15, 12, 1, d->k, 0, 0});
    add(line, &condition);
    add(line, &rest);
    within(line, d->phases, d->k + 1, 0);
    fields(spec, 3, (unsigned[]){4, action, span});
    if (wrong == OTHER_SPEC && rnd(2)) formula(spec, 2, d->k, 1); else add(spec, &condition);
    if (wrong == OTHER_SPEC) shared_values(spec, d); else add(spec, &rest);
    line_end(spec);
    d->rows++;
}

static void swap_texts(struct text *a, struct text *b) {
    static struct text first;
    first = *a;
    *a = *b;
    *b = first;
}

static void shuffle_rows(struct trial *d) {
    for (unsigned i = d->rows; i-- > 1;) {
        unsigned j = rnd(i + 1);
        if (i == j) continue;
        swap_texts(&d->line[i], &d->line[j]);
        swap_texts(&d->mark[i], &d->mark[j]);
    }
}

// The first row with a mark and another, mostly the next, take each other's.
static void swap_marks(struct trial *d) {
    unsigned first = 0;
    while (first < d->rows && !d->mark[first].len) first++;
    for (unsigned other = first + 1; other < d->rows; other++) {
        if (d->mark[other].len && rnd(2)) { swap_texts(&d->mark[first], &d->mark[other]); return; }
    }
}

static void trial_rows(struct trial *d, struct text *spec) {
    unsigned visible = 1 + rnd(3), other = rnd(3);
    d->rows = 0;
    for (int i = 0; i < MOST_ROWS; i++) d->line[i].len = d->mark[i].len = 0;
    for (unsigned r = 0; r < visible; r++) visible_row(d, visible - r, spec);
    if (rnd(3)) for (unsigned phase = 1; phase < d->phases; phase++) leading_row(d, phase);
    else leading_row(d, 0);
    for (unsigned r = 0; r < other; r++) other_row(d);
    shuffle_rows(d);
    if (d->wrong == MARKS_SWAPPED) swap_marks(d);
}

static void trial_parameters(struct text *t, struct trial *d) {
    d->k = 1 + rnd(2);
    d->phases = 2 + rnd(4);
    for (unsigned i = 0; i < d->k; i++) { d->size[i] = 1 + rnd(4); d->initial[i] = rnd(d->size[i]); }
    for (unsigned i = 0; i < d->k; i++) { fields(t, 3, (unsigned[]){1, d->size[i], d->initial[i]}); line_end(t); }
    fields(t, 3, (unsigned[]){1, d->phases, rnd(d->phases)}); line_end(t);
    for (unsigned i = 0; i < d->k; i++) { fields(t, 3, (unsigned[]){2, d->size[i], d->initial[i]}); line_end(t); }
}

static void trying(struct text *t) {
    static struct trial d;
    static struct text spec;
    t->len = spec.len = 0;
    d.wrong = rnd(2) ? rnd(WRONGS) : RIGHT;
    d.wrong_row = rnd(5);
    trial_parameters(t, &d);
    trial_rows(&d, &spec);
    for (unsigned r = 0; r < d.rows; r++) { add(t, &d.line[r]); line_end(t); }
    add(t, &spec);
    field(t, 5); if (d.wrong == OTHER_INVARIANT) formula(t, 4, d.k + 1, 0); else field(t, 10);
    line_end(t);
    field(t, 6); for (unsigned i = 0; i < d.k; i++) fields(t, 2, (unsigned[]){1, i});
    line_end(t);
    field(t, 7); if (d.wrong == OTHER_MEASURE) value(t, 3, d.k + 1, 0); else fields(t, 2, (unsigned[]){1, d.k});
    line_end(t);
    if (d.wrong == MARKS_LEFT_OUT) return;
    field(t, 8); for (unsigned r = 0; r < d.rows; r++) add(t, &d.mark[r]);
    line_end(t);
}

// Designs about measures: internal steps along edges that are listed, or along a chain of all states. Some are loops, or nearly so. The
// specification has one state.

enum { MOST_EDGES = 24, EDGES_IN_ROW = 8 };

struct runs {
    unsigned params, size[2], states, outside[4], outsides; // the states where the invariant doesn't hold
    struct text rows, marks;
};

// So many states, or some more, in one parameter or two.
static void shape(struct runs *d, unsigned states) {
    unsigned low = rnd(2) ? 1 : 2 + rnd(5);
    d->params = low == 1 ? 1 : 2;
    d->size[0] = (states + low - 1) / low;
    d->size[1] = low;
    d->states = d->size[0] * low;
    d->outsides = d->rows.len = d->marks.len = 0;
}

// A parameter's value. The state after the last is out of the sizes.
static unsigned part(const struct runs *d, unsigned i, unsigned state) { return i ? state % d->size[1] : state / d->size[1]; }

// Holds in this state.
static void at(struct text *t, const struct runs *d, unsigned state) {
    if (d->params == 2) field(t, 15);
    for (unsigned i = 0; i < d->params; i++) fields(t, 5, (unsigned[]){12, 1, i, 0, part(d, i, state)});
}

static void next_is(struct text *t, const struct runs *d, unsigned state) {
    for (unsigned i = 0; i < d->params; i++) fields(t, 2, (unsigned[]){0, part(d, i, state)});
}

// Anywhere or at a state; leads to a state, or stays.
static void visible_step(struct runs *d) {
    fields(&d->rows, 3, (unsigned[]){3, 1, 2});
    if (rnd(2)) field(&d->rows, 10); else at(&d->rows, d, rnd(d->states));
    fields(&d->rows, 2, (unsigned[]){0, 0});
    if (rnd(8) == 0) next_is(&d->rows, d, d->outsides ? d->outside[0] : d->states);
    else for (unsigned i = 0; i < d->params; i++) fields(&d->rows, 2, (unsigned[]){1, i});
    line_end(&d->rows);
}

// Edges.

struct edge {
    unsigned from, to, marked;
};

struct edges {
    struct edge edge[MOST_EDGES];
    unsigned n;
};

static void edge(struct edges *e, unsigned from, unsigned to, unsigned marked) {
    if (e->n < MOST_EDGES) e->edge[e->n++] = (struct edge){from, to, marked};
}

// Where up to five marked edges lead.
static unsigned on_from(const struct edges *e, unsigned state) {
    for (unsigned steps = rnd(6); steps > 0; steps--) {
        unsigned first = rnd(e->n), i = 0;
        while (i < e->n && !(e->edge[(first + i) % e->n].marked && e->edge[(first + i) % e->n].from == state)) i++;
        if (i == e->n) return state;
        state = e->edge[(first + i) % e->n].to;
    }
    return state;
}

// These numbers, by the sum value.
static void by_sum(struct text *t, const unsigned *numbers, unsigned from, unsigned below) {
    unsigned middle = (from + below) / 2;
    if (below - from == 1) { fields(t, 2, (unsigned[]){0, numbers[from]}); return; }
    fields(t, 5, (unsigned[]){6, 13, 2, 0, middle});
    by_sum(t, numbers, from, middle);
    by_sum(t, numbers, middle, below);
}

// A row with an edge for each sum value.
static void row_of_edges(struct runs *d, const struct edge *e, unsigned n) {
    unsigned numbers[EDGES_IN_ROW], unmarked = 0;
    fields(&d->rows, 3, (unsigned[]){3, 0, n});
    if (d->params == 2) field(&d->rows, 15);
    for (unsigned i = 0; i < d->params; i++) {
        for (unsigned k = 0; k < n; k++) numbers[k] = part(d, i, e[k].from);
        fields(&d->rows, 3, (unsigned[]){12, 1, i});
        by_sum(&d->rows, numbers, 0, n);
    }
    fields(&d->rows, 2, (unsigned[]){0, 0});
    for (unsigned i = 0; i < d->params; i++) {
        for (unsigned k = 0; k < n; k++) numbers[k] = part(d, i, e[k].to);
        by_sum(&d->rows, numbers, 0, n);
    }
    line_end(&d->rows);
    for (unsigned k = 0; k < n; k++) { numbers[k] = e[k].marked; unmarked += !e[k].marked; }
    if (!unmarked && rnd(2)) { field(&d->marks, 10); return; }
    fields(&d->marks, 3, (unsigned[]){12, 0, 1});
    by_sum(&d->marks, numbers, 0, n);
}

static void rows_of_edges(struct runs *d, struct edges *e) {
    for (unsigned i = e->n; i-- > 1;) {
        unsigned j = rnd(i + 1);
        struct edge other = e->edge[j];
        e->edge[j] = e->edge[i];
        e->edge[i] = other;
    }
    for (unsigned i = 0, n; i < e->n; i += n) {
        unsigned left = e->n - i;
        n = 1 + rnd(left < EDGES_IN_ROW ? left : EDGES_IN_ROW);
        row_of_edges(d, &e->edge[i], n);
    }
}

// One edge more: one that closes a loop of steps that are marked, or nearly so; one outside the invariant; one that leaves; one that is there
// already; or any that is unmarked.
static void another_edge(const struct runs *d, const unsigned *order, struct edges *e) {
    unsigned inside = order[d->outsides + rnd(d->states - d->outsides)];
    switch (rnd(8)) {
    case 0: case 1: edge(e, on_from(e, inside), inside, 1); break;
    case 2: case 3: edge(e, on_from(e, inside), inside, 0); break;
    case 4: if (d->outsides) edge(e, order[rnd(d->outsides)], order[rnd(d->outsides)], 1); break;
    case 5: edge(e, order[rnd(d->states)], d->outsides && rnd(2) ? order[0] : d->states, rnd(2)); break;
    case 6: edge(e, e->edge[0].from, e->edge[0].to, rnd(2)); break;
    default: edge(e, order[rnd(d->states)], inside, 0);
    }
}

// Edges that lead on in an order of the states, the first of which are outside the invariant, and others.
static void listed(struct runs *d) {
    unsigned order[32];
    struct edges e = {.n = 0};
    shape(d, 2 + rnd(14));
    for (unsigned i = 0; i < d->states; i++) {
        unsigned j = rnd(i + 1);
        order[i] = order[j];
        order[j] = i;
    }
    unsigned last = d->states - 1, outsides = rnd(2) ? 0 : rnd(last < 4 ? last + 1 : 5);
    while (d->outsides < outsides) { d->outside[d->outsides] = order[d->outsides]; d->outsides++; }
    for (unsigned edges = 1 + rnd(16); edges > 0; edges--) {
        unsigned i = rnd(last);
        edge(&e, order[i], order[rnd(2) ? i + 1 : i + 1 + rnd(last - i)], rnd(8) > 0);
    }
    for (unsigned others = rnd(4); others > 0; others--) another_edge(d, order, &e);
    if (rnd(4) == 0) visible_step(d);
    rows_of_edges(d, &e);
    if (rnd(4) == 0) visible_step(d);
}

// Chains.

static unsigned gcd(unsigned a, unsigned b) { return b ? gcd(b, a % b) : a; }

// Rising, falling, or scattered: each state's number and this one give the next, by the number of states.
static unsigned stride(unsigned states) {
    unsigned by = rnd(3) ? 1 + rnd(states) : rnd(2) ? 1 : states - 1;
    while (gcd(by, states) != 1) by = by % states + 1;
    return by;
}

// The next value of a parameter along the chain.
static void along(struct text *t, const struct runs *d, unsigned i, unsigned by) {
    fields(t, 2, (unsigned[]){5, 3});
    if (i == 0 && d->params == 2) fields(t, 11, (unsigned[]){3, 6, 13, 1, 1, 0, d->size[1] - part(d, 1, by), 0, 0, 0, 1});
    fields(t, 6, (unsigned[]){1, i, 0, part(d, i, by), 0, d->size[i]});
}

// How a chain ends, if at all.
enum chain_end { STOPS, UNMARKED, UNMARKED_ONCE, MARKED_ONCE, GOES_ROUND, STAYS, GOES_BACK, OUT_OF_SIZE, OUT_OF_INVARIANT, CHAIN_ENDS };

// An internal step from any state to the next one of the chain; something is otherwise in its end.
static void chain_row(struct runs *d, unsigned by, unsigned end, enum chain_end how) {
    unsigned span = rnd(2) ? 1 : 1 + rnd(4), before = (end + d->states - by) % d->states;
    unsigned other = how == STAYS ? end : how == GOES_BACK ? rnd(d->states) : d->states;
    struct text here = {.len = 0};
    at(&here, d, how == OUT_OF_INVARIANT ? before : end);
    fields(&d->rows, 3, (unsigned[]){3, 0, span});
    if (how == STOPS || (how == OUT_OF_INVARIANT && rnd(2))) { field(&d->rows, 14); add(&d->rows, &here); } else field(&d->rows, 10);
    fields(&d->rows, 2, (unsigned[]){0, 0});
    for (unsigned i = 0; i < d->params; i++) {
        if (how == STAYS || how == GOES_BACK || how == OUT_OF_SIZE) {
            field(&d->rows, 6);
            add(&d->rows, &here);
            fields(&d->rows, 2, (unsigned[]){0, part(d, i, other)});
        }
        along(&d->rows, d, i, by);
    }
    line_end(&d->rows);
    if (how == UNMARKED) { field(&d->marks, 14); add(&d->marks, &here); }
    else if (how == UNMARKED_ONCE) { fields(&d->marks, 6, (unsigned[]){14, 15, 12, 2, 0, rnd(span)}); add(&d->marks, &here); }
    else if (how == MARKED_ONCE) { fields(&d->marks, 6, (unsigned[]){16, 12, 2, 0, rnd(span + 1), 14}); add(&d->marks, &here); }
    else field(&d->marks, 10);
    if (how == OUT_OF_INVARIANT) { d->outside[0] = end; d->outsides = 1; }
}

// From a state of the chain to one further on, seldom further back; marked always, never or for one sum value.
static void jump_row(struct runs *d, unsigned by, unsigned end) {
    unsigned n = d->states, span = 1 + rnd(3), from = rnd(n), on = rnd(n), back = rnd(8) == 0, mark = rnd(3);
    if ((from > on) != back) { unsigned first = from; from = on; on = first; }
    fields(&d->rows, 3, (unsigned[]){3, 0, span});
    at(&d->rows, d, (end + (from + 1) * by) % n);
    fields(&d->rows, 2, (unsigned[]){0, 0});
    next_is(&d->rows, d, (end + (on + 1) * by) % n);
    line_end(&d->rows);
    if (mark == 2) fields(&d->marks, 4, (unsigned[]){12, 2, 0, rnd(span)}); else field(&d->marks, 10 + mark);
}

static void chain(struct runs *d) {
    shape(d, rnd(2) ? 2 + rnd(12) : rnd(3) ? 10 + rnd(60) : 100 + rnd(250));
    unsigned by = stride(d->states), end = rnd(d->states);
    enum chain_end how = rnd(3) ? rnd(CHAIN_ENDS) : rnd(GOES_ROUND);
    if (rnd(4) == 0) visible_step(d);
    chain_row(d, by, end, how);
    for (unsigned jumps = rnd(2) * rnd(4); jumps > 0; jumps--) jump_row(d, by, end);
    if (rnd(4) == 0) visible_step(d);
}

static void about_measures(struct text *t) {
    static struct runs d;
    if (rnd(2)) listed(&d); else chain(&d);
    t->len = 0;
    for (unsigned i = 0; i < d.params; i++) { fields(t, 3, (unsigned[]){1, d.size[i], rnd(d.size[i])}); line_end(t); }
    fields(t, 3, (unsigned[]){2, 1, 0}); line_end(t);
    add(t, &d.rows);
    if (rnd(2)) { fields(t, 8, (unsigned[]){4, 1, 2, 10, 0, 0, 0, 0}); line_end(t); }
    field(t, 5);
    for (unsigned i = 0; i < d.outsides; i++) { fields(t, 2, (unsigned[]){15, 14}); at(t, &d, d.outside[i]); }
    field(t, 10); line_end(t);
    fields(t, 3, (unsigned[]){6, 0, 0}); line_end(t);
    field(t, 7); value(t, 1 + rnd(2), d.params, 0); line_end(t);
    if (rnd(8) == 0) return;
    field(t, 8); add(t, &d.marks); line_end(t);
}

// Lines of kind 8 for any text.

// The lines that begin so.
static unsigned lines_with(const struct text *t, const char *start) {
    size_t n = strlen(start);
    unsigned found = 0;
    for (size_t at = 0; at + n <= t->len; at++) found += (at == 0 || t->bytes[at - 1] == 10) && memcmp(t->bytes + at, start, n) == 0;
    return found;
}

static int has_marks(const struct text *t) { return lines_with(t, "     8") > 0; }

static size_t last_line(const struct text *t) {
    size_t at = t->len;
    while (at > 0 && t->bytes[at - 1] == 10) at--;
    while (at > 0 && t->bytes[at - 1] != 10) at--;
    return at;
}

// A text without its last line, if that is of kind 8.
static void drop_marks(struct text *t) {
    size_t at = last_line(t);
    if (t->len - at >= 6 && memcmp(t->bytes + at, "     8", 6) == 0) t->len = at;
}

// A formula with so many fields, of little depth.
static void wide(struct text *t, unsigned n) {
    if (n < 3) { fields(t, n, (unsigned[]){n == 1 ? 10 : 14, 10}); return; }
    field(t, 15 + rnd(2));
    wide(t, (n - 1) / 2);
    wide(t, n - 1 - (n - 1) / 2);
}

// No formula, or one that is not allowed, or just allowed.
static void odd_mark(struct text *t, unsigned params) {
    switch (rnd(8)) {
    case 0: break;
    case 1: fields(t, 2, (unsigned[]){10, 10}); break;
    case 2: fields(t, 5, (unsigned[]){12, 1, params + (rnd(3) ? 0 : rnd(65536 - params)), 0, 0}); break;
    case 3: for (int i = 30 + rnd(3); i > 0; i--) field(t, 14);
        field(t, 10 + rnd(2)); break;
    case 4: value(t, 1 + rnd(2), params, 1); break;
    case 5: field(t, rnd(20)); break;
    case 6: wide(t, rnd(4) ? 253 + rnd(5) : 4600 + rnd(200)); break;
    default: fields(t, 2, (unsigned[]){14, rnd(20)});
    }
}

// One formula that is not `10`, though most of these always hold.
static void other_than_true(struct text *t) {
    static const unsigned other[][3] = {{14, 11}, {16, 10, 10}, {15, 10, 10}, {11}};
    static const int count[] = {2, 3, 3, 1};
    unsigned pick = rnd(4);
    fields(t, count[pick], other[pick]);
}

// A formula for each internal row: `10` for all, for all but one, for most, or any; now and then one of them is odd, or one more stands at
// the end.
static void marks_line(struct text *t, unsigned params, unsigned internal) {
    enum { BUT_ONE = 2, MOST }; // what is lower is all
    unsigned how = rnd(5), one = rnd(internal + 1), odd = rnd(4) ? internal : rnd(internal + 1);
    field(t, 8);
    for (unsigned r = 0; r < internal; r++) {
        if (r == odd) odd_mark(t, params);
        else if (how == BUT_ONE && r == one) other_than_true(t);
        else if (how <= BUT_ONE || (how == MOST && rnd(4))) field(t, 10);
        else formula(t, 1 + rnd(4), params, 1);
    }
    if (odd == internal && rnd(16) == 0) odd_mark(t, params);
    line_end(t);
}

// The text with another line of kind 8, seldom twice or at another place.
static void mark_text(struct text *t) {
    struct text line = {.len = 0};
    unsigned params = lines_with(t, "     1");
    drop_marks(t);
    marks_line(&line, params ? params : 1, lines_with(t, "     3     0"));
    if (rnd(12) == 0) {
        size_t at = rnd(t->len + 1);
        while (at > 0 && t->bytes[at - 1] != 10) at--;
        splice(t, at, 0, line.bytes, line.len);
        if (rnd(2)) return;
    }
    add(t, &line);
}

// Texts that divide. A term is replaced by one that has the same value wherever it has any, 65,535 now and then apart. If a remainder by
// zero were its dividend, the new text would have the old one's report.

enum { NO_FIELD = 65536, MOST_TERMS = 1024, MOST_DEPTH = 32 };

static unsigned field_at(const struct text *t, size_t at) {
    char columns[7] = {0};
    if (at + 6 > t->len || memchr(t->bytes + at, 10, 6)) return NO_FIELD;
    memcpy(columns, t->bytes + at, 6);
    return (unsigned)atoi(columns) % 65536;
}

static int is_mark(unsigned n) { return n < 7 || (9 < n && n < 17); }

// How many terms one with this mark holds, and whether the one in a place is a formula.
static unsigned parts_of(unsigned mark) {
    static const uint8_t parts[] = {0, 0, 0, 2, 2, 2, 3, 0, 0, 0, 0, 0, 2, 2, 1, 2, 2};
    return mark < sizeof parts ? parts[mark] : 0;
}

static int holds_formula(unsigned mark, unsigned i) { return mark > 13 || (mark == 6 && i == 0); }

// The end of the term that starts there, 0 if none does.
static size_t term_end(const struct text *t, size_t at, int depth) {
    unsigned mark = field_at(t, at);
    if (!is_mark(mark) || depth > MOST_DEPTH) return 0;
    at += mark < 2 ? 12 : 6;
    for (unsigned i = 0; i < parts_of(mark) && at; i++) at = term_end(t, at, depth + 1);
    return at;
}

enum place { INVARIANT, MAPPING, MEASURE, MARK, CONDITION, DATA, NEXT, SPEC_CONDITION, SPEC_DATA, SPEC_NEXT, PLACES };

// A term of a text: where it starts and ends, where it stands, whether it is a formula; and the parameters that it may read, by the kind of
// their lines, and whether it may read the sum value.
struct term {
    size_t at, end;
    enum place place;
    int formula, row;
    unsigned kind, params;
};

static enum place place_of(unsigned kind, unsigned i) {
    static const enum place alone[] = {INVARIANT, MAPPING, MEASURE, MARK};
    if (kind > 4) return alone[kind - 5];
    return (kind == 3 ? CONDITION : SPEC_CONDITION) + (i < 2 ? i : 2);
}

// All terms that stand by themselves, but for the data of internal rows. Gives how many.
static unsigned terms_of(const struct text *t, struct term *list) {
    const unsigned impl = lines_with(t, "     1"), spec = lines_with(t, "     2");
    unsigned n = 0;
    for (size_t line = 0; line < t->len;) {
        unsigned kind = field_at(t, line);
        int internal = kind == 3 && field_at(t, line + 6) == 0, row = kind == 3 || kind == 4;
        size_t at = line + (row ? 18 : 6), end = 0;
        for (unsigned i = 0; 2 < kind && kind < 9 && n < MOST_TERMS && (end = term_end(t, at, 1)) > 0; i++, at = end) {
            enum place place = place_of(kind, i);
            int formula = place == INVARIANT || place == MARK || place == CONDITION || place == SPEC_CONDITION;
            if (internal && place == DATA) continue;
            list[n++] = (struct term){at, end, place, formula, row || kind == 8, kind == 4 ? 2 : 1, kind == 4 ? spec : impl};
        }
        while (line < t->len && t->bytes[line] != 10) line++;
        line++;
    }
    return n;
}

// A design with its marked steps alone: the condition of each internal row, from the last on, is and-ed with its mark.
static void keep_marked_steps(struct text *t) {
    static struct term list[MOST_TERMS];
    static struct text old, both;
    const unsigned n = terms_of(t, list);
    unsigned mark = n;
    old = *t;
    for (unsigned i = n; i-- > 0;) {
        if (list[i].place != CONDITION || field_at(&old, list[i].at - 12) != 0 || mark == 0) continue;
        both.len = 0;
        mark--;
        field(&both, 15);
        put(&both, old.bytes + list[mark].at, list[mark].end - list[mark].at);
        splice(t, list[i].at, 0, both.bytes, both.len);
    }
}

// How a text divides: not at all, by numbers above 0, or by what can be 0.
enum dividing { NOWHERE, BY_NUMBERS, BY_TERMS };

static enum dividing dividing_at(const struct text *t, size_t *at) {
    unsigned mark = field_at(t, *at);
    enum dividing most = NOWHERE;
    *at += mark < 2 ? 12 : 6;
    for (unsigned i = 0; i < parts_of(mark); i++) {
        enum dividing by = mark != 5 || i == 0 ? NOWHERE : field_at(t, *at) == 0 && field_at(t, *at + 6) > 0 ? BY_NUMBERS : BY_TERMS;
        enum dividing part = dividing_at(t, at);
        most = by > most ? by : most;
        most = part > most ? part : most;
    }
    return most;
}

static enum dividing dividing_of(const struct text *t) {
    static struct term list[MOST_TERMS];
    enum dividing most = NOWHERE;
    for (unsigned i = terms_of(t, list); i-- > 0;) {
        enum dividing here = dividing_at(t, &list[i].at);
        most = here > most ? here : most;
    }
    return most;
}

// Some term of one of the first places, or one within it.
static int some_term(const struct text *t, struct term *found, unsigned places) {
    static struct term list[MOST_TERMS];
    unsigned n = terms_of(t, list), seen = 0;
    for (int tries = 0; tries < 8 && !seen; tries++) {
        enum place place = rnd(places);
        for (unsigned i = 0; i < n; i++)
            if (list[i].place == place && list[i].params && rnd(++seen) == 0) *found = list[i];
    }
    while (seen && rnd(2)) {
        unsigned mark = field_at(t, found->at), parts = parts_of(mark);
        if (!parts) break;
        unsigned part = rnd(parts);
        size_t at = found->at + 6;
        for (unsigned i = 0; i < part; i++) at = term_end(t, at, 1);
        found->formula = holds_formula(mark, part);
        found->at = at;
        found->end = term_end(t, at, 1);
    }
    return seen > 0;
}

// The size of a parameter.
static unsigned size_of(const struct text *t, unsigned kind, unsigned i) {
    for (size_t line = 0; line < t->len; line++) {
        if (line && t->bytes[line - 1] != 10) continue;
        if (field_at(t, line) == kind && i-- == 0) { unsigned size = field_at(t, line + 6); return size ? size : 1; }
    }
    return 1;
}

// What is 0 in some states or for some sum values; now and then in none, or in all.
static void divisor(struct text *out, const struct text *t, const struct term *term) {
    unsigned i = rnd(term->params), size = size_of(t, term->kind, i), n = rnd(size);
    switch (rnd(term->row ? 13 : 9)) {
    case 0: fields(out, 2, (unsigned[]){1, i}); break;
    case 1: case 2: case 3: fields(out, 5, (unsigned[]){4, 1, i, 0, rnd(2) ? size - 1 : n}); break;
    case 4: fields(out, 5, (unsigned[]){4, 1, i, 1, rnd(term->params)}); break;
    case 5: fields(out, 5, (unsigned[]){5, 1, i, 0, 1 + n}); break;
    case 6: fields(out, 5, (unsigned[]){3, 1, i, 0, 1}); break;
    case 7: field(out, 6); formula(out, 1 + rnd(3), term->params, term->row); fields(out, 4, (unsigned[]){0, rnd(2), 0, 1}); break;
    case 8: fields(out, 2, (unsigned[]){0, rnd(3)}); break;
    case 9: field(out, 2); break;
    case 10: fields(out, 4, (unsigned[]){4, 2, 0, rnd(4)}); break;
    case 11: fields(out, 4, (unsigned[]){3, 2, 0, 1}); break;
    default: fields(out, 4, (unsigned[]){4, 2, 1, i});
    }
}

// What is 0 in late states, where each of the first parameters has its last value.
static void late_divisor(struct text *out, const struct text *t, const struct term *term) {
    for (unsigned i = 1 + rnd(term->params); i-- > 0;) fields(out, 8, (unsigned[]){6, 13, 1, i, 0, size_of(t, term->kind, i) - 1, 0, 1});
    fields(out, 2, (unsigned[]){0, 0});
}

static void is_zero(struct text *out, const struct text *by) { field(out, 12); add(out, by); fields(out, 2, (unsigned[]){0, 0}); }

// A remainder, and one in a branch: that is taken where its divisor isn't 0, or wrongly where it is.

static void remainder_by(struct text *out, const struct text *dividend, const struct text *by) {
    field(out, 5);
    add(out, dividend);
    add(out, by);
}

static void guarded(struct text *out, const struct text *dividend, const struct text *by) {
    enum { FIRST, SECOND, WRONG };
    unsigned guard = rnd(6) ? rnd(WRONG) : WRONG;
    field(out, 6);
    if (guard == FIRST) field(out, 14);
    is_zero(out, by);
    if (guard == SECOND) add(out, dividend);
    remainder_by(out, dividend, by);
    if (guard != SECOND) add(out, dividend);
}

// A formula with such a remainder that holds or doesn't, if it has a value.
static void settled(struct text *out, const struct text *remainder, int holds) {
    struct text part = {.len = 0};
    fields(&part, 1, (unsigned[]){12 + rnd(2)});
    if (rnd(2)) { add(&part, remainder); fields(&part, 2, (unsigned[]){0, rnd(3)}); }
    else { fields(&part, 2, (unsigned[]){0, rnd(3)}); add(&part, remainder); }
    switch (rnd(4)) {
    case 0: fields(out, 2, (unsigned[]){holds ? 16 : 15, holds ? 10 : 11}); add(out, &part); break;
    case 1: field(out, holds ? 16 : 15); add(out, &part); field(out, holds ? 10 : 11); break;
    case 2: fields(out, 3, (unsigned[]){14, holds ? 15 : 16, holds ? 11 : 10}); add(out, &part); break;
    default: field(out, holds ? 12 : 13); add(out, remainder); add(out, remainder);
    }
}

// Another formula, or another value, in place of an old one.

static void dividing_formula(struct text *out, const struct text *old, const struct text *remainder) {
    int also = rnd(2), first = rnd(2);
    if (rnd(4) == 0) fields(out, 2, (unsigned[]){14, 14});
    field(out, also ? 15 : 16);
    if (first) add(out, old);
    settled(out, remainder, also);
    if (!first) add(out, old);
}

static void dividing_value(struct text *out, const struct text *old, const struct text *remainder, const struct text *by) {
    int holds = rnd(2);
    switch (rnd(6)) {
    case 0: fields(out, 2, (unsigned[]){4, 3}); add(out, old); add(out, remainder); add(out, remainder); break;
    case 1: field(out, 5); add(out, old); fields(out, 2, (unsigned[]){0, 65535}); break;
    case 2: field(out, 5); add(out, old); field(out, 6); is_zero(out, by); fields(out, 4, (unsigned[]){0, 0, 0, 65535}); break;
    case 3: // beside a branch that is never taken, and divides by 0
        field(out, 6);
        settled(out, remainder, holds);
        if (holds) add(out, old);
        field(out, 5); add(out, old); fields(out, 2, (unsigned[]){0, 0});
        if (!holds) add(out, old);
        break;
    default: field(out, 6); settled(out, remainder, holds); add(out, old); add(out, old);
    }
}

// Which processes have a count, their last parameter, that the invariant keeps from 0.
enum counting { NO_COUNT, IMPLEMENTATION_COUNTS, BOTH_COUNT };

static void divide_term(struct text *t, const struct term *term, const struct text *by, int is_guarded) {
    struct text old = {.len = 0}, dividend = {.len = 0}, remainder = {.len = 0}, other = {.len = 0};
    put(&old, t->bytes + term->at, term->end - term->at);
    value(&dividend, 1, term->params, term->row);
    if (is_guarded) guarded(&remainder, &dividend, by); else remainder_by(&remainder, &dividend, by);
    if (term->formula) dividing_formula(&other, &old, &remainder); else dividing_value(&other, &old, &remainder, by);
    splice(t, term->at, old.len, other.bytes, other.len);
}

static void divide(struct text *t, enum counting counting) {
    struct term term;
    struct text by = {.len = 0};
    if (!some_term(t, &term, PLACES)) return;
    if (counting >= term.kind && rnd(6)) fields(&by, 2, (unsigned[]){1, term.params - 1}); else divisor(&by, t, &term);
    divide_term(t, &term, &by, rnd(3) > 0);
}

// In the invariant, the mapping or the measure: a step from a lower state leads to what has no value.
static void divide_late(struct text *t) {
    struct term term;
    struct text by = {.len = 0};
    if (!some_term(t, &term, MEASURE + 1)) return;
    late_divisor(&by, t, &term);
    divide_term(t, &term, &by, 0);
}

static size_t line_end_from(const struct text *t, size_t at) {
    while (at < t->len && t->bytes[at] != 10) at++;
    return at;
}

// The text with one parameter more, a count that all rows keep and the invariant keeps from 0; the specification has it too, or not. Seldom
// a row takes one away, the invariant doesn't keep it, or it starts at 0.
static enum counting count_more(struct text *t) {
    static struct text out;
    enum { TAKES_ONE, NOT_KEPT, STARTS_AT_0, OTHERS = 12 };
    const unsigned impl = lines_with(t, "     1"), spec = lines_with(t, "     2"), size = 2 + rnd(3), wrong = rnd(OTHERS), both = rnd(2);
    unsigned initial = wrong == STARTS_AT_0 ? 0 : 1 + rnd(size - 1), wrong_row = rnd(4);
    if (impl == 0 || impl > 7 || spec == 0 || spec > 7) return NO_COUNT;
    out.len = 0;
    for (size_t line = 0, end; line < t->len; line = end) {
        unsigned kind = field_at(t, line);
        end = line_end_from(t, line);
        put(&out, t->bytes + line, kind == 5 ? 6 : end - line);
        if (kind == 3 && wrong == TAKES_ONE && wrong_row-- == 0) fields(&out, 5, (unsigned[]){4, 1, impl, 0, 1});
        else if (kind == 3 || (kind == 6 && both)) fields(&out, 2, (unsigned[]){1, impl});
        else if (kind == 4 && both) fields(&out, 2, (unsigned[]){1, spec});
        else if (kind == 5) {
            if (wrong != NOT_KEPT) fields(&out, 6, (unsigned[]){15, 13, 0, 0, 1, impl});
            put(&out, t->bytes + line + 6, end - line - 6);
        }
        if (end < t->len) { line_end(&out); end++; }
        if (field_at(t, end) == kind || (kind != 1 && !(kind == 2 && both))) continue;
        fields(&out, 3, (unsigned[]){kind, size, initial});
        line_end(&out);
    }
    *t = out;
    return both ? BOTH_COUNT : IMPLEMENTATION_COUNTS;
}

// The last value less another.
static void mirrored(struct text *t, unsigned size) { fields(t, 3, (unsigned[]){4, 0, size - 1}); }

// The term that starts there, one parameter read the other way round. Gives its end.
static size_t mirrored_term(struct text *out, const struct text *t, size_t at, unsigned i, unsigned size) {
    unsigned mark = field_at(t, at);
    size_t end = at + (mark < 2 ? 12 : 6);
    if (mark == 1 && field_at(t, at + 6) == i) mirrored(out, size);
    put(out, t->bytes + at, end - at);
    for (unsigned part = 0; part < parts_of(mark); part++) end = mirrored_term(out, t, end, i, size);
    return end;
}

// The text with the values of some implementation parameter the other way round: steps that led to higher states lead to lower ones. Its
// lines are whole.
static void mirror(struct text *t) {
    static struct text out;
    const unsigned impl = lines_with(t, "     1"), i = rnd(impl), size = size_of(t, 1, i);
    unsigned parameter = 0;
    out.len = 0;
    for (size_t line = 0, end; line < t->len; line = end + 1) {
        unsigned kind = field_at(t, line);
        size_t at = line + (kind == 3 ? 18 : 6);
        end = line_end_from(t, line);
        if (kind == 1 && parameter++ == i) fields(&out, 3, (unsigned[]){1, size, size - 1 - field_at(t, line + 12)});
        else if (kind == 1 || kind == 2 || kind == 4) put(&out, t->bytes + line, end - line);
        else {
            put(&out, t->bytes + line, at - line);
            for (unsigned part = 0; at < end; part++) {
                if (kind == 3 && part == i + 2) mirrored(&out, size);
                at = mirrored_term(&out, t, at, i, size);
            }
        }
        line_end(&out);
    }
    *t = out;
}

// Changes of a text: one field, and bytes.

// The start of some field, reckoned within its line.
static size_t some_field(const struct text *t) {
    size_t at = rnd(t->len + 1), start = at;
    while (start > 0 && t->bytes[start - 1] != 10) start--;
    return start + (at - start) / 6 * 6;
}

static void mutate(struct text *t) {
    char columns[32];
    size_t at = some_field(t);
    snprintf(columns, sizeof columns, "%6u%6u", rnd(3) ? (unsigned)rnd(18) : number(), number());
    uint8_t digit = '0' + rnd(rnd(3) ? 4 : 10);
    switch (rnd(16)) {
    case 0: splice(t, at, 6, "", 0); break;
    case 1: splice(t, at, 0, columns, 6); break;
    case 2: splice(t, at, 0, columns, 12); break;
    case 3: {
        size_t from = at, to = at;
        while (from > 0 && t->bytes[from - 1] != 10) from--;
        while (to < t->len && t->bytes[to] != 10) to++;
        uint8_t line[ROOM];
        size_t n = to < t->len ? to + 1 - from : to - from;
        memcpy(line, t->bytes + from, n);
        if (rnd(2)) splice(t, from, n, "", 0);
        else splice(t, from, 0, line, n);
        break;
    }
    case 4: case 5: case 6: splice(t, at, 6, columns, 6); break;
    default: if (t->len) splice(t, at + 5, 1, &digit, 1);
    }
}

// Another mark or number, mostly of the same sort, in place of the field there.
static void flip(struct text *t, size_t at) {
    static const unsigned like[] = {0, 1, 2, 4, 3, 5, 6, 7, 8, 9, 11, 10, 13, 12, 14, 16, 15};
    char columns[16] = {0};
    if (at + 6 > t->len) return;
    memcpy(columns, t->bytes + at, 6);
    unsigned n = (unsigned)atoi(columns) % 65536;
    snprintf(columns, sizeof columns, "%6u", n < 10 && rnd(2) ? (unsigned)rnd(4) : n < 17 ? like[n] : number());
    memcpy(t->bytes + at, columns, 6);
}

// The same in the last line, which has the marks if there are any.
static void flip_marks(struct text *t) {
    size_t line = last_line(t), n = (t->len - line) / 6;
    for (int i = 1 + rnd(2); i > 0 && n > 0; i--) flip(t, line + rnd(n) * 6);
}

// Other columns in place of a field: blanks, then digits, and now and then an odd byte among them.
static void odd_columns(struct text *t) {
    static const uint8_t odd[] = {' ', '0', '!', 0, '\n', ' ' | 128, '0' | 64, '0' | 128};
    uint8_t columns[6];
    size_t blanks = rnd(7);
    for (size_t i = 0; i < 6; i++) columns[i] = i < blanks ? ' ' : '0' + rnd(rnd(2) ? 2 : 10);
    if (rnd(3) == 0) columns[rnd(6)] = odd[rnd(sizeof odd)];
    splice(t, some_field(t), 6, columns, 6);
}

static void damage(struct text *t) {
    static const uint8_t odd[] = {0, 9, 10, 13, 32, 43, 45, 46, 47, 48, 49, 57, 58, 65, 127, 128, 255};
    uint8_t byte = rnd(3) ? odd[rnd(sizeof odd)] : rnd(256);
    size_t at = rnd(t->len + 1);
    switch (rnd(8)) {
    case 0: splice(t, at, 1, "", 0); break;
    case 1: splice(t, at, 0, &byte, 1); break;
    case 2: t->len = at; break;
    case 3: {
        uint8_t start[ROOM];
        size_t n = t->len - rnd(t->len + 1);
        memcpy(start, t->bytes, n);
        splice(t, at, 0, start, n);
        break;
    }
    case 4: case 5: odd_columns(t); break;
    default: splice(t, at, 1, &byte, 1);
    }
}

static void filled(struct text *t) {
    static const size_t about[] = {28671, 28672, 28673, 28679, 30000, 0, 1, 6, 7};
    size_t n = about[rnd(9)];
    uint8_t line[7] = "     1\n";
    line[5] = '0' + rnd(8);
    t->len = 0;
    while (t->len + 7 <= n) put(t, line, 7);
    while (t->len < n) put(t, &line[rnd(7)], 1);
}

// An internal row of so many fields.
static void long_row(struct text *t, unsigned n) {
    fields(t, 3, (unsigned[]){3, 0, 1});
    wide(t, n - 7);
    fields(t, 4, (unsigned[]){0, 0, 1, 0});
    line_end(t);
}

// About as many fields as a text may have, or so many less that the line of marks which it hasn't makes them up; its last row has the rest.
static void full(struct text *t) {
    enum { MOST_FIELDS = 4096, LONGEST = 256, LONG_ROWS = 15, FEWEST = 8, HEAD = 6, MARK_FIELDS = LONG_ROWS + 2 };
    struct text end = {.len = 0};
    unsigned sort = rnd(4);
    fields(&end, 2, (unsigned[]){5, 10}); line_end(&end);
    fields(&end, 3, (unsigned[]){6, 0, 0}); line_end(&end);
    fields(&end, 3, (unsigned[]){7, 0, 0}); line_end(&end);
    if (sort > 1) marks_line(&end, 1, LONG_ROWS + 1);
    int left = MOST_FIELDS - 2 + (int)rnd(5) - HEAD - LONG_ROWS * LONGEST - (int)(end.len / 6) - (sort ? 0 : MARK_FIELDS);
    t->len = 0;
    fields(t, 3, (unsigned[]){1, 2, rnd(2)}); line_end(t);
    fields(t, 3, (unsigned[]){2, 1, 0}); line_end(t);
    for (int r = 0; r < LONG_ROWS; r++) long_row(t, LONGEST);
    long_row(t, left < FEWEST ? FEWEST : left > LONGEST ? LONGEST : left);
    add(t, &end);
}

static void from_pool(struct text *t, const struct pool *p) { *t = p->table[rnd(p->tables)]; }

static void from_good(struct text *t, const struct pool *p) { *t = p->table[p->good[rnd(p->accepted)]]; }

static void from_marked(struct text *t, const struct pool *p) { *t = p->table[p->good_marked[rnd(p->marked)]]; }

static void made(struct text *t) {
    if (rnd(5)) related(t); else shaped(t);
    if (rnd(3) == 0) mark_text(t);
}

static void dividing(struct text *t, const struct pool *p) {
    switch (rnd(10)) {
    case 0: case 1: related(t); if (rnd(2)) mirror(t); break;
    case 2: case 3: case 4: trying(t); if (rnd(2)) mirror(t); break;
    case 5: about_measures(t); if (rnd(2)) mirror(t); break;
    case 6: from_pool(t, p); break;
    case 7: from_marked(t, p); break;
    default: from_good(t, p);
    }
    if (rnd(3) == 0) { divide_late(t); return; }
    enum counting counting = rnd(2) ? count_more(t) : NO_COUNT;
    for (int i = 1 + rnd(3); i > 0; i--) divide(t, counting);
}

static void make_text(struct text *t, const struct pool *p) {
    switch (rnd(46)) {
    case 0: case 1: case 2: case 3: case 4: made(t); break;
    case 5: case 6: made(t); mutate(t); break;
    case 7: made(t); damage(t); break;
    case 8: case 9: case 10: trying(t); break;
    case 11: trying(t); flip(t, some_field(t)); break;
    case 12: trying(t); flip_marks(t); break;
    case 13: trying(t); mutate(t); break;
    case 14: trying(t); mark_text(t); break;
    case 15: from_marked(t, p); if (rnd(2)) flip_marks(t); else flip(t, some_field(t)); break;
    case 16: from_marked(t, p); if (rnd(2)) mark_text(t); else mutate(t); break;
    case 17: case 18: case 19: from_pool(t, p); for (int i = 1 + rnd(3); i > 0; i--) mutate(t); break;
    case 20: from_pool(t, p); for (int i = 1 + rnd(2); i > 0; i--) damage(t); break;
    case 21: from_pool(t, p); mark_text(t); if (rnd(2)) mutate(t); break;
    case 22: from_pool(t, p); mutate(t); damage(t); break;
    case 23: case 24: case 25: case 26: case 27: case 28: about_measures(t); break;
    case 29: about_measures(t); flip(t, some_field(t)); break;
    case 30: about_measures(t); if (rnd(2)) mutate(t); else mark_text(t); break;
    case 31: dividing(t, p); mutate(t); break;
    case 32: dividing(t, p); flip(t, some_field(t)); break;
    case 33: dividing(t, p); if (rnd(2)) mark_text(t); else flip_marks(t); break;
    case 34: if (rnd(4)) { made(t); for (int i = 1 + rnd(6); i > 0; i--) mutate(t); } else if (rnd(2)) filled(t); else full(t); break;
    default: dividing(t, p);
    }
}

#endif
