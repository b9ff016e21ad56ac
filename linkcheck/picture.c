/* A table's transition systems as a Graphviz picture: a cluster for each side. What matters is told by shapes, widths and words, so that it
 * is there in print too; colours only help. */
#define _POSIX_C_SOURCE 200809L
#include "picture.h"
#include "explain.h"
#include "graph.h"
#include "names.h"

#include <stdlib.h>
#include <string.h>

enum { EXTRA = 8, CAPTION_COLUMNS = 100, MOST_LABELS = 8, LONG_STRIP = 9 };

/* One side of the picture. */
struct sheet {
    struct graph *g;
    char letter;         /* nodes are named by it */
    uint32_t reached;    /* how many states were found before those that only a failure names */
    bool failing;        /* a state fails, */
    uint32_t fails;      /* at this place */
    bool ordered;        /* it is known, */
    unsigned *depth;     /* how many steps a state is away from the initial one */
    unsigned column;     /* how many of these come below each other, before the picture goes on beside them; 0 for all */
};

struct picture {
    const struct verdict *v;
    const struct drawing *d;
    struct sheet board, ours;
};

/* ---- what is in it ---- */

static bool has_values(const struct process *p, const struct state *s) {
    unsigned i = 0;
    while (i < p->parameters && s->value[i] != NO_VALUE) i++;
    return i == p->parameters;
}

/* Adds the state where a step leads, if it is within. */
static void add_end(struct graph *g, const struct state *s, const struct row *row, unsigned sum) {
    const struct state next = next_state(g->p, row, s, sum);
    if (enabled(row, s, sum) && within(g, &next)) found(g, &next);
}

/* Our row that a failure is about; NULL if there is none. */
static const struct row *our_row(const struct table *t, const struct failure *f) {
    const struct row *row = failing_row(t, f);
    if (!row || row_is_ours(f)) return row;
    return f->criterion >= ALLOWED && f->criterion <= NEXT && row->action != INTERNAL ? row_of(&t->spec, row->action) : NULL;
}

static void fail_at(struct sheet *sheet, const struct state *s, const struct row *row, unsigned sum) {
    struct graph *g = sheet->g;
    sheet->failing = true;
    sheet->fails = g->failing_state = found(g, s);
    if (!row) return;
    g->failing_row = (unsigned)(row - g->p->row) + 1;
    g->failing_sum = sum;
    add_end(g, s, row, sum);
}

/* Whether a failure is by something of ours at the mapped state. */
static bool is_about_ours(const struct table *t, const struct failure *f) {
    const struct missing m = here_of(t, f).missing;
    return (f->criterion >= ALLOWED && f->criterion <= NEXT) || (m.row && missing_is_ours(t, &m));
}

/* The state that fails and the mapped one, with the steps that the failure is about; reached or not. */
static void add_failure(struct picture *p) {
    const struct table *t = &p->v->table;
    const struct failure *f = &p->v->failure;
    if (p->v->outcome != CHECK_FAILED || f->state >= state_count(&t->impl)) return;
    const struct state s = numbered_state(&t->impl, f->state), ours = mapped(t, &s);
    if (p->board.g) fail_at(&p->board, &s, row_is_ours(f) ? NULL : failing_row(t, f), f->sum);
    if (p->ours.g && is_about_ours(t, f) && outside(&t->spec, &ours) == t->spec.parameters) fail_at(&p->ours, &ours, our_row(t, f), f->sum);
}

/* Ours around a state: what the board's states are mapped to. */
static void find_mapped(struct graph *ours, const struct graph *board) {
    for (uint32_t n = 0; n < board->states; n++) {
        const struct state s = mapped(board->t, &board->state[n]);
        if (outside(ours->p, &s) == ours->p->parameters) found(ours, &s);
    }
}

static const char *find_states(struct picture *p) {
    const struct drawing *d = p->d;
    const char *why = NULL;
    if (p->board.g) why = d->around ? find_around(p->board.g, d->state, d->steps) : find_reached(p->board.g);
    if (!why && p->ours.g && d->around) find_mapped(p->ours.g, p->board.g);
    else if (!why && p->ours.g) why = find_reached(p->ours.g);
    return why;
}

/* ---- its shape ---- */

/* Fills in how far states are away from the initial one. Gives how many there are at most at one distance; and the largest. */
static unsigned find_depths(struct sheet *sheet, unsigned *levels) {
    struct graph *g = sheet->g;
    sheet->ordered = true;
    unsigned *count = calloc(g->states + 1, sizeof *count), widest = 1;
    if (!count) no_memory();
    for (uint32_t n = 1; n < g->states; n++) sheet->depth[n] = g->states;
    for (uint32_t from = 0; from < g->states; from++) {
        leave(g, from, FIXED);
        for (size_t i = 0; i < g->edges; i++) {
            const struct edge *e = &g->edge[i];
            if (e->leads == TO_FOUND && sheet->depth[e->to] == g->states) sheet->depth[e->to] = sheet->depth[from] + 1;
        }
        if (sheet->depth[from] >= g->states) continue;
        if (++count[sheet->depth[from]] > widest) widest = count[sheet->depth[from]];
        if (sheet->depth[from] + 1 > *levels) *levels = sheet->depth[from] + 1;
    }
    free(count);
    return widest;
}

/* How many columns make a strip, so many times as long as it is wide, a page; the next whole number is good enough. */
static unsigned columns_for(unsigned long length, unsigned long width) {
    unsigned long columns = 1;
    while (2 * (columns + 1) * columns * width <= 3 * length) columns++;
    return (unsigned)columns;
}

/* What is further from the initial state is drawn below, and a long strip is folded. What is around a state is left to Graphviz. */
static void choose_shape(struct picture *p) {
    struct sheet *sheet = p->board.g ? &p->board : &p->ours;
    unsigned levels = 1, other = 1;
    if (p->d->around) return;
    const unsigned widest = find_depths(sheet, &levels);
    const unsigned long node = 65 + 15ul * sheet->g->p->parameters;
    const unsigned columns = levels < LONG_STRIP ? 1 : columns_for(90ul * levels, node * widest);
    if (columns > 1) sheet->column = (levels + columns - 1) / columns;
    if (p->board.g && p->ours.g) find_depths(&p->ours, &other);
}

/* ---- words ---- */

/* Writes words as part of a label. */
static void put_label(struct output *out, const char *words, size_t length) {
    for (size_t i = 0; i < length; i++) {
        if (words[i] == '"' || words[i] == '\\') put(out, "\\");
        put_bytes(out, &words[i], 1);
    }
}

/* How much of the words goes in a line: up to a blank that is in no brackets, if there is one. */
static size_t caption_line(const char *words, size_t length) {
    size_t part = CAPTION_COLUMNS;
    int brackets = 0;
    if (length <= CAPTION_COLUMNS) return length;
    for (size_t i = 0; i < CAPTION_COLUMNS; i++) {
        brackets += (words[i] == '(') - (words[i] == ')');
        if (words[i] == ' ' && brackets <= 0 && i > 0) part = i;
    }
    return part;
}

/* Writes words as lines of a caption. */
static void put_caption(struct output *out, const char *words, size_t length) {
    while (length > 0) {
        const size_t part = caption_line(words, length);
        put_label(out, words, part);
        put(out, part < length ? "\\l    " : "\\l");
        words += part;
        length -= part;
    }
}

static void print_caption(struct output *out, const struct picture *p, const char *name) {
    struct output words = {.file = KEPT};
    put_name(&words, name);
    put(&words, "  ");
    print_verdict(&words, p->v);
    if (words.error) no_memory();
    put(out, "  label=\"");
    put_caption(out, words.bytes, words.length);
    if (p->d->around)
        print(out, "drawn: up to %u step%s on from state %lu, and up to %u back\\l", p->d->steps, p->d->steps == 1 ? "" : "s", p->d->state,
              p->d->steps);
    if (p->board.g) put(out, "double line: focus point; tau: internal step");
    if (p->board.g && p->v->table.has_marks) put(out, ", dashed if not marked");
    put(out, p->v->outcome == CHECK_FAILED ? "; thick: the failure\\l\";\n" : "\\l\";\n");
    free(words.bytes);
}

/* ---- states ---- */

static void print_node_name(struct output *out, const struct sheet *sheet, uint32_t n) {
    const struct graph *g = sheet->g;
    print(out, "%c%lu", sheet->letter, g->side == IMPLEMENTATION && outside(g->p, &g->state[n]) == g->p->parameters
                                           ? state_number(g->p, &g->state[n]) : (unsigned long)n);
}

/* Whether criterion 10 fails in a state of the implementation; or would in one that is mapped to this state of the specification. */
static bool lacks_value(const struct graph *g, uint32_t n) {
    const struct state *s = &g->state[n];
    return (g->side == IMPLEMENTATION ? first_missing(g->t, s, ALL) : missing_in_rows(g->p, s)).part;
}

/* What a state is mapped to, if it has values. */
static void print_mapped(struct output *out, const struct graph *g, uint32_t n) {
    const struct state ours = mapped(g->t, &g->state[n]);
    if (!has_values(&g->t->spec, &ours)) return;
    put(out, "\\nmapped to ");
    print_state(out, &g->t->spec, &ours);
    if (outside(&g->t->spec, &ours) < g->t->spec.parameters) put(out, " outside");
}

static void print_node(struct output *out, const struct picture *p, const struct sheet *sheet, uint32_t n) {
    const struct graph *g = sheet->g;
    const bool board = g->side == IMPLEMENTATION, fails = sheet->failing && sheet->fails == n, lacks = lacks_value(g, n);
    put(out, "    ");
    print_node_name(out, sheet, n);
    put(out, " [label=\"");
    if (board) print(out, "%lu\\n", state_number(g->p, &g->state[n]));
    print_state(out, g->p, &g->state[n]);
    if (board) print_mapped(out, g, n);
    if (lacks) put(out, "\\na value is missing");
    if (n >= sheet->reached && !p->d->around) put(out, "\\nnot reached");
    if (fails && board) print(out, "\\ncriterion %u fails", p->v->failure.criterion);
    put(out, "\"");
    if (board && focus_point(g->p, &g->state[n])) put(out, ", peripheries=2");
    if (fails) put(out, ", shape=octagon, penwidth=3, style=filled, fillcolor=\"#ffd9d0\"");
    else if (board && p->d->around && state_number(g->p, &g->state[n]) == p->d->state) put(out, ", shape=box, penwidth=2");
    else if (lacks) put(out, ", style=dashed");
    put(out, "];\n");
}

/* ---- steps ---- */

/* Transitions that are drawn as one: those to one end and of one sort. */
static int by_end(const void *a, const void *b) {
    const struct edge *x = a, *y = b;
    if (x->leads != y->leads) return x->leads < y->leads ? -1 : 1;
    if (x->to != y->to) return x->to < y->to ? -1 : 1;
    const int end = memcmp(&x->end, &y->end, sizeof x->end);
    if (end) return end;
    if (x->leads >= NO_CONDITION && x->row != y->row) return x->row < y->row ? -1 : 1;
    if (x->failing != y->failing) return x->failing ? -1 : 1;
    if ((x->action == INTERNAL) != (y->action == INTERNAL)) return x->action == INTERNAL ? -1 : 1;
    return x->action == INTERNAL && x->marked != y->marked ? (x->marked ? -1 : 1) : 0;
}

static int by_end_and_label(const void *a, const void *b) {
    const struct edge *x = a, *y = b;
    const int end = by_end(a, b);
    if (end) return end;
    if (x->action != y->action) return x->action < y->action ? -1 : 1;
    return x->data < y->data ? -1 : x->data > y->data;
}

/* The data from one transition on that rise by one, as 0..3. Gives how many there are. */
static size_t print_data_range(struct output *out, const struct edge *e, size_t count) {
    size_t n = 1;
    while (n < count && e[n].action == e->action && e[n].data == e->data + n && e->data != NO_VALUE) n++;
    if (e->data == NO_VALUE) put(out, "?");
    else print(out, "%u", e->data);
    if (n > 1) print(out, n > 2 ? "..%u" : ", %u", e[n - 1].data);
    return n;
}

/* The labels of transitions that are drawn as one. */
static void print_labels(struct output *out, const struct edge *e, size_t count) {
    unsigned labels = 0;
    for (size_t i = 0; i < count;) {
        const bool more = i > 0 && e[i].action == e[i - 1].action;
        if (labels++ == MOST_LABELS) {
            put(out, more ? ", ..)" : "\\n..");
            return;
        }
        if (e[i].action == INTERNAL) {
            put(out, e[i].leads == NO_CONDITION ? "tau?" : "tau");
            i++;
            continue;
        }
        if (more) put(out, ", ");
        else print(out, "%sa%u(", i ? "\\n" : "", e[i].action);
        i += print_data_range(out, &e[i], count - i);
        if (i == count || e[i].action != e[i - 1].action) put(out, ")");
    }
}

/* The end of a step that leads to no state: a mark of its own, which says where it leads or what it lacks. */
static void print_mark(struct output *out, const struct sheet *sheet, const struct edge *e, unsigned number) {
    static const char *const lacks[] = {[NO_CONDITION] = "condition", [NO_DATA] = "data", [NO_NEXT] = "next state"};
    print(out, "_%u [shape=box, style=dotted, label=\"", number);
    if (e->leads >= NO_CONDITION) {
        print(out, "no value:\\n%s of row %u", lacks[e->leads], e->row);
    } else {
        const struct process *p = sheet->g->p;
        if (e->leads == OUT_OF_INVARIANT) print(out, "%lu\\n", state_number(p, &e->end));
        print_state(out, p, &e->end);
        put(out, e->leads == OUT_OF_INVARIANT ? "\\noutside the invariant" : "\\noutside the sizes");
    }
    put(out, "\"];\n");
}

/* How a step to a state that was found lies in the picture: on, to one that is further from the initial state or was found later; back,
 * the other way; aside, to another column. On and back alone say what is drawn below what. (Steps that say nothing of that and have a label
 * of the usual sort are too much for some versions of Graphviz.) */
enum lies { ON, BACK, ASIDE };

static enum lies lies(const struct sheet *sheet, uint32_t from, uint32_t to) {
    if (!sheet->ordered) return ON;
    const unsigned a = sheet->depth[from], b = sheet->depth[to];
    if (sheet->column && a / sheet->column != b / sheet->column) return ASIDE;
    return a < b || (a == b && from <= to) ? ON : BACK;
}

static void print_style(struct output *out, const struct edge *e) {
    if (e->action == INTERNAL && !e->marked) put(out, ", style=dashed");
    if (e->failing) put(out, ", penwidth=3, color=\"#b00000\", fontcolor=\"#b00000\"");
    else if (e->action == INTERNAL) put(out, ", color=gray50, fontcolor=gray30");
}

/* A step that leads back is written from its end on. */
static void print_ends(struct output *out, const struct sheet *sheet, uint32_t from, const struct edge *e, unsigned mark) {
    const enum lies way = e->leads == TO_FOUND ? lies(sheet, from, e->to) : ON;
    const bool back = way == BACK;
    put(out, "    ");
    print_node_name(out, sheet, back ? e->to : from);
    put(out, " -> ");
    print_node_name(out, sheet, back || e->leads != TO_FOUND ? from : e->to);
    if (e->leads != TO_FOUND) print(out, "_%u", mark);
    put(out, back ? " [dir=back, label=\"" : way == ASIDE ? " [constraint=false, xlabel=\"" : " [label=\"");
}

/* A condition without a value, which enables nothing: the first in the state. */
static void add_missing_condition(struct graph *g, uint32_t from) {
    const struct missing m = missing_in_rows(g->p, &g->state[from]);
    if (m.part != A_CONDITION) return;
    g->edge[g->edges++] = (struct edge){.leads = NO_CONDITION, .action = m.row->action, .data = NO_VALUE, .row = missing_row(&m)};
}

static void print_steps(struct output *out, struct sheet *sheet, uint32_t from) {
    struct graph *g = sheet->g;
    unsigned marks = 0;
    leave(g, from, FIXED);
    add_missing_condition(g, from);
    qsort(g->edge, g->edges, sizeof *g->edge, by_end_and_label);
    for (size_t i = 0, end; i < g->edges; i = end) {
        const struct edge *e = &g->edge[i];
        for (end = i + 1; end < g->edges && by_end(e, &g->edge[end]) == 0;) end++;
        if (e->leads == BEYOND) continue;
        if (e->leads != TO_FOUND) {
            put(out, "    ");
            print_node_name(out, sheet, from);
            print_mark(out, sheet, e, ++marks);
        }
        print_ends(out, sheet, from, e, marks);
        print_labels(out, e, end - i);
        put(out, "\"");
        print_style(out, e);
        put(out, "];\n");
    }
}

/* ---- all of it ---- */

static void print_sheet(struct output *out, const struct picture *p, struct sheet *sheet) {
    const struct graph *g = sheet->g;
    const bool board = g->side == IMPLEMENTATION;
    const struct state start = initial_state(g->p);
    uint32_t first;
    print(out, "  subgraph cluster_%s {\n    label=\"%s\";\n", board ? "board" : "specification",
          board ? "the board: implementation" : "the specification");
    if (was_found(g, &start, &first)) {
        print(out, "    start_%c [label=\"start\", shape=plaintext];\n    start_%c -> ", sheet->letter, sheet->letter);
        print_node_name(out, sheet, first);
        put(out, " [penwidth=2];\n");
    }
    for (uint32_t n = 0; n < g->states; n++) {
        print_node(out, p, sheet, n);
        print_steps(out, sheet, n);
    }
    put(out, "  }\n");
}

/* Whether there are so many steps between so few states that Graphviz would take minutes over the best picture. */
static bool is_dense(const struct graph *g) {
    return g && g->transitions > 400 && g->transitions > 8ul * g->states;
}

static void print_picture(struct output *out, const struct picture *p, const char *name) {
    struct sheet board = p->board, ours = p->ours;
    put(out, "digraph linkcheck {\n");
    put(out, "  graph [nodesep=0.2, ranksep=0.35, fontname=\"Helvetica\", fontsize=12, labelloc=t, labeljust=l];\n");
    if (is_dense(board.g) || is_dense(ours.g)) put(out, "  graph [splines=line, nslimit=1, nslimit1=1, mclimit=0.1];\n");
    put(out, "  node [fontname=\"Helvetica\", fontsize=11, margin=\"0.04,0.02\", height=0.3];\n");
    put(out, "  edge [fontname=\"Helvetica\", fontsize=10, arrowsize=0.7];\n");
    print_caption(out, p, name);
    if (board.g) print_sheet(out, p, &board);
    if (ours.g) print_sheet(out, p, &ours);
    put(out, "}\n");
}

static struct sheet sheet_of(const struct table *t, enum side side, bool wanted) {
    struct sheet sheet = {.letter = side == IMPLEMENTATION ? 'i' : 's'};
    if (!wanted) return sheet;
    sheet.g = graph_of(t, side, MOST_DRAWN);
    sheet.depth = calloc(MOST_DRAWN + EXTRA, sizeof *sheet.depth);
    if (!sheet.depth) no_memory();
    return sheet;
}

static void sheet_free(struct sheet *sheet) {
    if (sheet->g) graph_free(sheet->g);
    free(sheet->depth);
}

/* Makes room for what a failure names. */
static void end_search(struct sheet *sheet) {
    if (!sheet->g) return;
    sheet->reached = sheet->g->states;
    sheet->g->most = MOST_DRAWN + EXTRA;
}

const char *write_dot(struct output *out, const char *name, const struct verdict *v, const struct drawing *d) {
    struct picture p = {.v = v, .d = d};
    p.board = sheet_of(&v->table, IMPLEMENTATION, d->board);
    p.ours = sheet_of(&v->table, SPECIFICATION, d->ours);
    const char *why = find_states(&p);
    if (!why) {
        end_search(&p.board);
        end_search(&p.ours);
        add_failure(&p);
        choose_shape(&p);
        print_picture(out, &p, name);
    }
    sheet_free(&p.board);
    sheet_free(&p.ours);
    return why;
}
