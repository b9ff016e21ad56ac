/* A verdict in words: the place of a failure with its values, and what differs there. "The board" is the implementation; in the code "ours"
 * is the specification. */
#define _POSIX_C_SOURCE 200809L
#include "explain.h"
#include "state.h"

#include <stdlib.h>

static const char *const criteria[] = {
    "", "start", "mapped values", "invariant", "mapping", "measure", "allowed by the specification", "offered by the board", "data",
    "next state", "values",
};

const char *criterion_word(unsigned criterion) {
    return criterion < sizeof criteria / sizeof *criteria ? criteria[criterion] : "";
}

/* ---- the place ---- */

bool row_is_ours(const struct failure *f) {
    return f->criterion == OFFERED;
}

const struct row *failing_row(const struct table *t, const struct failure *f) {
    const struct process *p = row_is_ours(f) ? &t->spec : &t->impl;
    return f->row >= 1 && f->row <= p->rows ? &p->row[f->row - 1] : NULL;
}

struct point point_of(const struct here *h, const struct row *row) {
    return point_at(h->t, row->side == LOOK_SPECIFICATION ? &h->mapped : &h->state, h->f->sum);
}

char row_letter(const struct row *row) {
    return row->side == LOOK_SPECIFICATION ? 'q' : 'p';
}

/* A condition that is longer than this is left to --show and to JSON. */
enum { LONGEST_CONDITION = 100 };

/* Writes the condition of a row, and what it reads beside what is told; not the sum value, which stands there anyway. */
static void print_condition(struct output *out, const struct here *h, const struct row *row, unsigned told) {
    const struct point p = point_of(h, row);
    struct output words = {.file = KEPT};
    put(&words, ", when ");
    print_formula(&words, row->condition, row_letter(row));
    print_reads(&words, reads_of(row->condition) & ~told & ~(unsigned)READS_SUM, row_letter(row), &p);
    if (words.error) no_memory();
    if (words.length <= LONGEST_CONDITION) put_bytes(out, words.bytes, words.length);
    free(words.bytes);
}

static void print_place(struct output *out, const struct here *h) {
    const struct row *row = h->row;
    print_numbered(out, &h->t->impl, &h->state);
    if (!row) return;
    print(out, ", %srow %u (", row->side == LOOK_SPECIFICATION ? "the specification's " : "", row->number);
    if (row->action == INTERNAL) put(out, "internal");
    else print(out, "action %u", row->action);
    print(out, ", line %zu", line_of(h->t, row->condition));
    print_condition(out, h, row, pinned_by(row->condition));
    print(out, "), sum value %u", h->f->sum);
}

/* ---- what is missing ---- */

/* At the initial state the invariant, or where it holds the mapping. */
static struct missing missing_at_start(const struct table *t, const struct state *s) {
    const struct missing m = missing_invariant(t, s);
    return m.part || !invariant_holds(t, s) ? m : missing_mapped(t, s);
}

/* Where the step of a row leads, which has its values there: what the criterion asks for. */
static struct missing missing_at_next(const struct table *t, unsigned criterion, const struct state *next) {
    const struct missing none = {.part = NOTHING};
    if (outside(&t->impl, next) < t->impl.parameters) return none;
    switch (criterion) {
    case KEEPS_INVARIANT: return missing_invariant(t, next);
    case KEEPS_MAPPING: case NEXT: return missing_mapped(t, next);
    case SMALLER_MEASURE: return missing_measure(t, next);
    default: return none;
    }
}

static struct missing missing_at(const struct here *h) {
    const struct failure *f = h->f;
    if (f->criterion == START) return missing_at_start(h->t, &h->state);
    if (f->criterion == VALUES) return first_missing(h->t, &h->state, f->measure_apart ? ALL_BUT_MEASURE : ALL);
    if (!h->row || row_is_ours(f)) return (struct missing){.part = NOTHING};
    return missing_at_next(h->t, f->criterion, &h->next);
}

struct here here_of(const struct table *t, const struct failure *f) {
    struct here h = {.t = t, .f = f, .row = failing_row(t, f), .state = numbered_state(&t->impl, f->state)};
    const bool ours = row_is_ours(f);
    h.mapped = mapped(t, &h.state);
    if (h.row && h.row->action != INTERNAL) h.other = row_of(ours ? &t->impl : &t->spec, h.row->action);
    if (h.row) h.next = next_state(ours ? &t->spec : &t->impl, h.row, ours ? &h.mapped : &h.state, f->sum);
    h.missing = missing_at(&h);
    return h;
}

/* ---- what does not hold ---- */

struct culprit culprit_in(term f, char letter, struct point p) {
    return (struct culprit){failing_conjunct(f, &p), letter, p};
}

struct culprit culprit_of(const struct here *h) {
    const struct table *t = h->t;
    const unsigned criterion = h->f->criterion;
    if (h->missing.part) return (struct culprit){.at = NULL};
    if (criterion == START) return culprit_in(t->invariant, 'p', point_at(t, &h->state, 0));
    if (criterion == KEEPS_INVARIANT && outside(&t->impl, &h->next) == t->impl.parameters)
        return culprit_in(t->invariant, 'p', point_at(t, &h->next, 0));
    if ((criterion == ALLOWED || criterion == OFFERED) && h->other)
        return culprit_in(h->other->condition, row_letter(h->other), point_of(h, h->other));
    return (struct culprit){.at = NULL};
}

void print_culprit(struct output *out, const struct culprit *c) {
    if (!c->at) return;
    const unsigned reads = reads_of(c->at);
    put(out, ": ");
    print_formula(out, c->at, c->letter);
    put(out, reads ? " fails" : " never holds");
    print_reads(out, reads, c->letter, &c->point);
}

/* ---- what differs, for each criterion ---- */

static void print_no_value(struct output *out, const struct here *h) {
    print_missing(out, h->t, &h->missing);
}

static void print_start(struct output *out, const struct here *h) {
    const struct state ours = initial_state(&h->t->spec);
    const struct culprit c = culprit_of(h);
    if (h->missing.part) {
        put(out, "in the initial state there is ");
        print_no_value(out, h);
        return;
    }
    if (!invariant_holds(h->t, &h->state)) {
        put(out, "the invariant does not hold in the initial state");
        print_culprit(out, &c);
        return;
    }
    put(out, "the initial state is mapped to ");
    print_state(out, &h->t->spec, &h->mapped);
    put(out, ", the specification's initial state is ");
    print_state(out, &h->t->spec, &ours);
}

static void print_mapped_values(struct output *out, const struct here *h) {
    unsigned i = outside(&h->t->spec, &h->mapped);
    put(out, "it is mapped to ");
    print_state(out, &h->t->spec, &h->mapped);
    if (i == h->t->spec.parameters) return;
    print(out, ", and %u is not below the size %u of the specification's parameter %u", h->mapped.value[i], h->t->spec.size[i], i);
}

static void print_invariant(struct output *out, const struct here *h) {
    const struct process *p = &h->t->impl;
    const struct culprit c = culprit_of(h);
    unsigned i = outside(p, &h->next);
    put(out, "the step leads to ");
    print_numbered(out, p, &h->next);
    if (i < p->parameters) {
        print(out, ", and %u is not below the size %u of parameter %u", h->next.value[i], p->size[i], i);
    } else if (h->missing.part) {
        put(out, ", where there is ");
        print_no_value(out, h);
    } else {
        put(out, ", where the invariant does not hold");
        print_culprit(out, &c);
    }
}

static void print_mapping(struct output *out, const struct here *h) {
    const struct state after = mapped(h->t, &h->next);
    put(out, "the state is mapped to ");
    print_state(out, &h->t->spec, &h->mapped);
    put(out, ", the step leads to ");
    print_numbered(out, &h->t->impl, &h->next);
    put(out, h->missing.part ? ", where there is " : ", mapped to ");
    if (h->missing.part) print_no_value(out, h);
    else print_state(out, &h->t->spec, &after);
}

static void print_measure(struct output *out, const struct here *h) {
    print(out, "the measure is %u, and ", measure(h->t, &h->state));
    if (!h->missing.part) print(out, "%u ", measure(h->t, &h->next));
    print(out, "after the %sstep to ", h->t->has_marks ? "marked " : "");
    print_numbered(out, &h->t->impl, &h->next);
    if (!h->missing.part) return;
    put(out, " there is ");
    print_no_value(out, h);
}

/* The other side's row with its line, and its condition if it joins several. */
static void print_other(struct output *out, const struct here *h) {
    const bool joins = *h->other->condition == AND;
    print(out, "row %u (line %zu", h->other->number, line_of(h->t, h->other->condition));
    if (joins) print_condition(out, h, h->other, reads_of(h->other->condition));
    put(out, ")");
}

static void print_allowed(struct output *out, const struct here *h) {
    const struct culprit c = culprit_of(h);
    print(out, "the board can do action %u, ", h->row->action);
    if (!h->other) {
        put(out, "the specification has no row of it");
        return;
    }
    put(out, "the specification's ");
    print_other(out, h);
    put(out, " is not enabled at the mapped state ");
    print_state(out, &h->t->spec, &h->mapped);
    print_culprit(out, &c);
}

/* The state is a focus point: no internal row is enabled there, or what is enabled isn't marked. */
static void print_offered(struct output *out, const struct here *h) {
    const struct step unmarked = unmarked_step(&h->t->impl, &h->state);
    const struct culprit c = culprit_of(h);
    put(out, "the specification can do it at the mapped state ");
    print_state(out, &h->t->spec, &h->mapped);
    if (h->other) {
        put(out, ", the board's ");
        print_other(out, h);
        put(out, " is not enabled");
        print_culprit(out, &c);
    } else {
        print(out, ", the board has no row of action %u", h->row->action);
    }
    print(out, "; no %s is enabled", unmarked.row ? "marked step" : "internal row");
    if (unmarked.row) print(out, ": internal row %u is enabled for sum value %u but not marked", unmarked.row->number, unmarked.sum);
}

static void print_data(struct output *out, const struct here *h) {
    if (!h->other) return;
    print(out, "the board's data %u, ", data_number(h->row, &h->state, h->f->sum));
    print(out, "the specification's %u", data_number(h->other, &h->mapped, h->f->sum));
}

static void print_next(struct output *out, const struct here *h) {
    if (!h->other) return;
    const struct state boards = mapped(h->t, &h->next), our_next = next_state(&h->t->spec, h->other, &h->mapped, h->f->sum);
    put(out, "the board's step leads to ");
    print_numbered(out, &h->t->impl, &h->next);
    put(out, h->missing.part ? ", where there is " : ", mapped to ");
    if (h->missing.part) print_no_value(out, h);
    else print_state(out, &h->t->spec, &boards);
    put(out, h->missing.part ? "; the specification's leads to " : ", the specification's to ");
    print_state(out, &h->t->spec, &our_next);
}

void print_difference(struct output *out, const struct here *h) {
    static void (*const difference[])(struct output *, const struct here *) = {
        [START] = print_start, [MAPPED_VALUES] = print_mapped_values, [KEEPS_INVARIANT] = print_invariant,
        [KEEPS_MAPPING] = print_mapping, [SMALLER_MEASURE] = print_measure, [ALLOWED] = print_allowed,
        [OFFERED] = print_offered, [DATA] = print_data, [NEXT] = print_next, [VALUES] = print_no_value,
    };
    difference[h->f->criterion](out, h);
}

/* ---- whether it can happen ---- */

/* Criterion 10 may fail by the invariant itself, which then neither holds nor fails. */
static void print_unreached(struct output *out, const struct here *h) {
    if (h->f->criterion == VALUES && h->missing.part == THE_INVARIANT)
        print(out, "; no run gets to state %u, but the invariant has to have a value in every state", h->f->state);
    else print(out, "; the invariant holds in state %u, and no run gets there: it may be too weak", h->f->state);
}

struct run run_of(const struct here *h) {
    return h->f->criterion == START ? (struct run){.reached = true, .end = h->f->state} : run_to(h->t, h->f->state);
}

/* Of criterion 1 nothing is left to say: it is about the initial state. */
static void print_reached(struct output *out, const struct here *h, bool whole) {
    struct run r = run_of(h);
    if (h->f->criterion == START) return;
    if (r.unreached) print_unreached(out, h);
    else if (r.reached && r.length == 0) print(out, "; state %u is the initial state", r.end);
    else if (r.reached && whole) print(out, "; reached by %zu step%s:", r.length, r.length == 1 ? "" : "s");
    else if (r.reached) put(out, "; reached: ");
    if (r.reached && r.length > 0) (whole ? print_whole_run : print_run)(out, h->t, &r);
    run_free(&r);
}

static void print_failed(struct output *out, const struct table *t, const struct failure *f, bool whole) {
    const struct here h = here_of(t, f);
    print_place(out, &h);
    put(out, ": ");
    print_difference(out, &h);
    print_reached(out, &h, whole);
}

void print_failure(struct output *out, const struct table *t, const struct failure *f) {
    print_failed(out, t, f, false);
}

static void print_first_step(struct output *out, const struct table *t, const struct step *first) {
    const struct state start = initial_state(&t->impl);
    print(out, ": row %u (internal, line %zu), sum value %u", first->row->number, line_of(t, first->row->condition), first->sum);
    put(out, ", enabled in the initial ");
    print_numbered(out, &t->impl, &start);
    if (!marked(first->row, &start, first->sum)) put(out, " but not marked");
}

static void print_bare_failure(struct output *out, const struct failure *f) {
    print(out, "failed: criterion %u, state %u, row %u, sum value %u", f->criterion, f->state, f->row, f->sum);
}

/* Where what linkcheck finds doesn't fit the verdict, there are only the numbers of the report. */
static void print_words(struct output *out, const struct verdict *v, bool whole) {
    const struct failure *f = &v->failure;
    switch (v->outcome) {
    case CHECK_ACCEPTED: put(out, "accepted"); break;
    case CHECK_ACCEPTED_AFTER_INTERNAL:
        put(out, "accepted after a first internal step");
        if (v->fits) print_first_step(out, &v->table, &v->first);
        break;
    case CHECK_FAILED:
        if (v->fits) print(out, "failed: criterion %u (%s), ", f->criterion, criterion_word(f->criterion));
        if (v->fits) print_failed(out, &v->table, f, whole);
        else print_bare_failure(out, f);
        break;
    default: print_turned_down(out, &v->fault);
    }
}

void print_verdict(struct output *out, const struct verdict *v) {
    print_words(out, v, false);
}

void print_whole_verdict(struct output *out, const struct verdict *v) {
    print_words(out, v, true);
}
