/* A verdict, and a measure, as a JSON object on one line. */
#define _POSIX_C_SOURCE 200809L
#include "json.h"
#include "explain.h"
#include "names.h"
#include "state.h"

/* A name's bytes that are no UTF-8 become the replacement character. */
static void print_string(struct output *out, const char *string) {
    put(out, "\"");
    while (*string) {
        const struct character c = character_at(string);
        if (c.length == 0) put(out, "\\ufffd");
        else if (c.number == '"' || c.number == '\\') print(out, "\\%c", *string);
        else if (is_control(c.number)) print(out, "\\u%04x", (unsigned)c.number);
        else put_bytes(out, string, c.length);
        string += c.length ? c.length : 1;
    }
    put(out, "\"");
}

static const char *truth(bool b) {
    return b ? "true" : "false";
}

/* ---- parts of a failure ---- */

static void print_values(struct output *out, const char *member, const struct process *p, const struct state *s) {
    print(out, "\"%s\":[", member);
    for (unsigned i = 0; i < p->parameters; i++) print(out, "%s%u", i ? "," : "", s->value[i]);
    put(out, "]");
}

/* A state of the implementation: its values, and before them the number, if they are inside the sizes. */
static void print_at(struct output *out, const struct process *p, const struct state *s) {
    if (outside(p, s) == p->parameters) print(out, "\"state\":%lu,", state_number(p, s));
    print_values(out, "values", p, s);
}

/* A state of the specification, unless a value of the mapping is missing. */
static void print_mapped(struct output *out, const struct table *t, const struct state *m) {
    if (!is_whole(&t->spec, m)) return;
    put(out, ",");
    print_values(out, "mapped", &t->spec, m);
}

/* A state, and the step from it if there is a row. */
static void print_stop(struct output *out, const struct process *p, const struct stop *stop) {
    const struct state s = numbered_state(p, stop->state);
    print_at(out, p, &s);
    if (stop->row) print(out, ",\"row\":%u,\"sum\":%u", stop->row, stop->sum);
}

/* A formula in infix, and what it reads. */
static void print_term(struct output *out, const char *member, const struct table *t, term f, char letter, const struct point *p) {
    const unsigned reads = reads_of(f);
    const char *before = "";
    print(out, ",\"%s\":{\"line\":%zu,\"term\":\"", member, line_of(t, f));
    print_formula(out, f, letter);
    put(out, "\",\"reads\":{");
    for (unsigned i = 0; i < MAX_PARAMETERS; i++) {
        if (!(reads & 1u << i)) continue;
        print(out, "%s\"%c%u\":%u", before, letter, i, p->values[i]);
        before = ",";
    }
    if (reads & READS_SUM) print(out, "%s\"s\":%u", before, p->sum);
    put(out, "}}");
}

static void print_row(struct output *out, unsigned row, bool ours, unsigned action, unsigned sum) {
    print(out, ",\"row\":%u,\"row_of\":\"%s\",\"action\":%u,\"sum\":%u", row, ours ? "specification" : "implementation", action, sum);
}

/* Where the specification's step leads. */
static void print_our_next(struct output *out, const struct here *h, const struct state *next) {
    put(out, ",\"next\":{");
    print_values(out, "values", &h->t->spec, next);
    put(out, "}");
}

/* Where the implementation's step leads; and where criterion 4, 5 or 9 asks for it, what that is mapped to, or its measure. */
static void print_next(struct output *out, const struct here *h) {
    const unsigned criterion = h->f->criterion;
    put(out, ",\"next\":{");
    print_at(out, &h->t->impl, &h->next);
    if (!h->missing.part && (criterion == KEEPS_MAPPING || criterion == NEXT)) {
        const struct state m = mapped(h->t, &h->next);
        print_mapped(out, h->t, &m);
    }
    if (!h->missing.part && criterion == SMALLER_MEASURE) print(out, ",\"measure\":%u", measure(h->t, &h->next));
    put(out, "}");
}

/* The failing row. */
static void print_failing_row(struct output *out, const struct here *h) {
    const bool ours = row_is_ours(h->f);
    const struct point p = point_of(h, h->row);
    print_row(out, h->row->number, ours, h->row->action, h->f->sum);
    print(out, ",\"line\":%zu", line_of(h->t, h->row->condition));
    print_term(out, "condition", h->t, h->row->condition, row_letter(h->row), &p);
    print(out, ",\"data\":%u", data_number(h->row, ours ? &h->mapped : &h->state, h->f->sum));
    if (ours) print_our_next(out, h, &h->next);
    else print_next(out, h);
}

/* The other side's row of the action, for criteria 6 to 9. In the last two it is ours and enabled, and so has data and leads somewhere. */
static void print_other_row(struct output *out, const struct here *h) {
    const struct row *other = h->other;
    const bool ours = other->side == LOOK_SPECIFICATION;
    const struct point p = point_of(h, other);
    const struct row_look look = row_at(other, ours ? &h->mapped : &h->state, h->f->sum);
    const bool is_enabled = look.told[LOOK_CONDITION] == LOOK_HOLDS;
    const struct state next = next_of(&look);
    print(out, ",\"other\":{\"row\":%u,\"row_of\":\"%s\",\"line\":%zu,\"enabled\":%s", other->number,
          ours ? "specification" : "implementation", line_of(h->t, other->condition), truth(is_enabled));
    print_term(out, "condition", h->t, other->condition, row_letter(other), &p);
    if (is_enabled) {
        print(out, ",\"data\":%u", look.told[LOOK_DATA]);
        print_our_next(out, h, &next);
    }
    put(out, "}");
}

/* Of a table with marks: whether the step is marked, or whether steps that are not marked start in the focus point. */
static void print_marks(struct output *out, const struct here *h) {
    if (h->f->criterion == SMALLER_MEASURE) print(out, ",\"marked\":%s", truth(marked(h->row, &h->state, h->f->sum)));
    if (h->f->criterion == OFFERED) print(out, ",\"unmarked_enabled\":%s", truth(unmarked_step(&h->t->impl, &h->state).row));
}

/* A value that is missing, if the failure is by one. */
static void print_missing_value(struct output *out, const struct here *h) {
    const struct missing *m = &h->missing;
    if (!m->part) return;
    print(out, ",\"missing\":{\"line\":%zu,\"part\":\"%s\"", line_of(h->t, m->gap.at), part_word(m->part));
    if (m->part == A_MAPPED_VALUE || m->part == A_NEXT_VALUE) print(out, ",\"parameter\":%u", m->parameter);
    if (m->row) print_row(out, missing_row(m), missing_is_ours(h->t, m), m->row->action, m->sum);
    put(out, ",");
    print_values(out, "values", m->process, &m->at);
    put(out, ",\"term\":\"");
    print_gap(out, h->t, m);
    print(out, "\",\"dividend\":%u}", m->gap.dividend);
}

static void print_trace(struct output *out, const struct table *t, const struct run *r) {
    put(out, ",\"trace\":[");
    for (size_t i = 0; i < r->length; i++) {
        const struct row *row = &t->impl.row[r->stop[i].row - 1];
        const struct state s = numbered_state(&t->impl, r->stop[i].state), next = step_end(t, &r->stop[i]);
        put(out, i ? ",{" : "{");
        print_stop(out, &t->impl, &r->stop[i]);
        print(out, ",\"action\":%u,\"data\":%u,\"next\":{", row->action, data_number(row, &s, r->stop[i].sum));
        print_at(out, &t->impl, &next);
        put(out, "}}");
    }
    put(out, "]");
}

/* Whether the state is reached, and by which steps. */
static void print_reached(struct output *out, const struct here *h) {
    struct run r = run_of(h);
    if (r.reached || r.unreached) print(out, ",\"reached\":%s", truth(r.reached));
    if (r.reached) print_trace(out, h->t, &r);
    run_free(&r);
}

/* The members of a failure, but for those that say which criterion it is; its difference has the name `words`. */
static void print_failure_members(struct output *out, const struct here *h, const char *words) {
    const struct culprit c = culprit_of(h);
    const unsigned criterion = h->f->criterion;
    put(out, ",");
    print_at(out, &h->t->impl, &h->state);
    print_mapped(out, h->t, &h->mapped);
    if (criterion == SMALLER_MEASURE) print(out, ",\"measure\":%u", measure(h->t, &h->state));
    if (h->row) print_failing_row(out, h);
    if (h->other && criterion >= ALLOWED && criterion <= NEXT) print_other_row(out, h);
    if (h->t->has_marks) print_marks(out, h);
    print(out, ",\"%s\":\"", words);
    print_difference(out, h); /* it has no character to escape */
    put(out, "\"");
    if (c.at) print_term(out, "conjunct", h->t, c.at, c.letter, &c.point);
    print_missing_value(out, h);
    print_reached(out, h);
}

/* ---- a verdict ---- */

/* The internal step that is enabled in the initial state. */
static void print_first_step(struct output *out, const struct verdict *v) {
    const struct process *p = &v->table.impl;
    const struct state start = initial_state(p);
    put(out, ",");
    print_stop(out, p, &(struct stop){(unsigned)state_number(p, &start), v->first.row->number, v->first.sum});
    print(out, ",\"line\":%zu", line_of(&v->table, v->first.row->condition));
    if (v->table.has_marks) print(out, ",\"marked\":%s", truth(marked(v->first.row, &start, v->first.sum)));
}

static void print_failed(struct output *out, const struct verdict *v) {
    const struct failure *f = &v->failure;
    print(out, ",\"criterion\":%u", f->criterion);
    if (!v->fits) {
        print(out, ",\"state\":%u,\"row\":%u,\"sum\":%u", f->state, f->row, f->sum);
        return;
    }
    const struct here h = here_of(&v->table, f);
    print(out, ",\"about\":\"%s\"", criterion_word(f->criterion));
    print_failure_members(out, &h, "difference");
}

/* What every object begins with: the file, and what there is. */
static void begin(struct output *out, const char *name, const char *member, const char *what) {
    put(out, "{\"file\":");
    print_string(out, name);
    print(out, ",\"%s\":\"%s\"", member, what);
}

void json_verdict(struct output *out, const char *name, const struct verdict *v) {
    static const char *const words[] = {
        [CHECK_ACCEPTED] = "accepted", [CHECK_ACCEPTED_AFTER_INTERNAL] = "accepted after internal", [CHECK_FAILED] = "failed",
        [CHECK_TURNED_DOWN] = "turned down",
    };
    begin(out, name, "verdict", words[v->outcome]);
    if (v->outcome == CHECK_ACCEPTED_AFTER_INTERNAL && v->fits) print_first_step(out, v);
    if (v->outcome == CHECK_FAILED) print_failed(out, v);
    if (v->outcome == CHECK_TURNED_DOWN) json_fault(out, &v->fault);
    put(out, "}");
}

/* ---- a measure ---- */

static void print_numbers(struct output *out, const struct measured *m) {
    print(out, ",\"states\":%u,\"largest\":%u,\"own_meets\":%s", m->states, m->number[m->largest], truth(m->own_meets));
    if (m->own_meets) print(out, ",\"own_excess\":%u", excess(m, m->above));
    put(out, ",\"numbers\":[");
    for (unsigned k = 0; k < m->states; k++) print(out, "%s%u", k ? "," : "", m->number[k]);
    put(out, "]");
}

static void print_stops(struct output *out, const struct measured *m) {
    print(out, ",\"state\":%u,\"loop\":[", m->loop[0].state);
    for (size_t i = 0; i < m->length; i++) {
        put(out, i ? ",{" : "{");
        print_stop(out, &m->table.impl, &m->loop[i]);
        put(out, "}");
    }
    put(out, "]");
}

static void print_refusal(struct output *out, const struct measured *m) {
    json_fault(out, &m->fault);
    if (m->fault.number != MEASURE_CRITERION_3) return;
    const struct here h = here_of(&m->table, &m->failure);
    print_failure_members(out, &h, "fault");
}

/* What measure_design said alone. */
static void print_bare(struct output *out, const struct measured *m) {
    if (m->outcome == MEASURE_LOOP) print(out, ",\"state\":%lu", (unsigned long)m->given);
    if (m->outcome == MEASURE_TURNED_DOWN) print(out, ",\"number\":%lu", (unsigned long)m->given);
}

void json_measure(struct output *out, const char *name, const struct measured *m) {
    static const char *const words[] = {[MEASURE_FILLED] = "filled", [MEASURE_LOOP] = "loop", [MEASURE_TURNED_DOWN] = "turned down"};
    static void (*const print_rest[])(struct output *, const struct measured *) = {
        [MEASURE_FILLED] = print_numbers, [MEASURE_LOOP] = print_stops, [MEASURE_TURNED_DOWN] = print_refusal,
    };
    begin(out, name, "measure", words[m->outcome]);
    (m->fits ? print_rest[m->outcome] : print_bare)(out, m);
    put(out, "}");
}

void json_unreadable(struct output *out, const char *member, const char *name, const char *why) {
    begin(out, name, member, "unreadable");
    put(out, ",\"why\":");
    print_string(out, why);
    put(out, "}");
}

void json_begin(struct output *out, const char *name, const char *member, const char *what) {
    begin(out, name, member, what);
}
