/* States of a process and the steps of its rows. */
#define _POSIX_C_SOURCE 200809L
#include "state.h"

#include <string.h>

/* No term outside rows and marks reads the sum value. */
enum { NO_SUM = 0 };

/* ---- a table that is held ---- */

/* The lines and fields are the same, place by place. */
static bool is_as_read(const struct table *t) {
    const struct held_design *h = &t->held;
    const size_t counts[LOOK_COUNTS] = {t->impl.parameters, t->spec.parameters, t->impl.rows, t->spec.rows, t->has_marks};
    if (memcmp(counts, h->counts, sizeof counts) != 0 || t->lines >= LOOK_STARTS || t->fields > LOOK_FIELDS) return false;
    for (size_t i = 0; i < t->lines; i++)
        if (t->field + h->starts[i] != t->line[i].field) return false;
    return h->starts[t->lines] == t->fields && memcmp(t->field, h->fields, t->fields * sizeof *t->field) == 0;
}

static bool reads_sum(const struct process *p, const struct row *row) {
    unsigned read = reads_of(row->condition) | reads_of(row->data) | (row->mark ? reads_of(row->mark) : 0);
    term next = row->next;
    for (unsigned i = 0; i < p->parameters; i++, next = passed(next)) read |= reads_of(next);
    return read & READS_SUM;
}

static void hold_rows(struct table *t, struct process *p, unsigned side) {
    for (unsigned r = 0; r < p->rows; r++) {
        struct row *row = &p->row[r];
        row->table = t;
        row->side = side;
        row->number = r + 1;
        row->sums = reads_sum(p, row) ? row->span : 1;
    }
}

bool table_hold(struct table *t, const uint8_t *text, size_t len) {
    struct held_design *h = &t->held;
    if (hold_design(text, len, h->fields, h->starts, h->counts) != 0 || !is_as_read(t)) return false;
    hold_rows(t, &t->impl, LOOK_IMPLEMENTATION);
    hold_rows(t, &t->spec, LOOK_SPECIFICATION);
    return true;
}

struct point point_at(const struct table *t, const struct state *s, unsigned sum) {
    struct point p = {.table = t, .sum = (uint16_t)sum};
    for (unsigned i = 0; i < MAX_PARAMETERS; i++) p.values[i] = (uint16_t)s->value[i];
    return p;
}

struct state_look state_at(const struct table *t, const struct state *s) {
    const struct held_design *h = &t->held;
    const struct point p = point_at(t, s, NO_SUM);
    struct state_look look;
    look_state(h->fields, h->starts, h->counts, p.values, look.told);
    return look;
}

struct row_look row_at(const struct row *r, const struct state *s, unsigned sum) {
    const struct held_design *h = &r->table->held;
    const struct point p = point_at(r->table, s, sum);
    struct row_look look;
    look_row(h->fields, h->starts, h->counts, r->side, (uint16_t)r->number, p.values, p.sum, look.told);
    return look;
}

bool criterion_holds(const struct table *t, const struct state *s, unsigned criterion, unsigned row, unsigned sum) {
    const struct held_design *h = &t->held;
    const struct point p = point_at(t, s, sum);
    return look_criterion(h->fields, h->starts, h->counts, p.values, (uint16_t)criterion, (uint16_t)row, p.sum) == LOOK_HOLDS;
}

/* ---- states ---- */

struct state initial_state(const struct process *p) {
    struct state s = {{0}};
    for (unsigned i = 0; i < p->parameters; i++) s.value[i] = p->initial[i];
    return s;
}

struct state numbered_state(const struct process *p, unsigned long number) {
    struct state s = {{0}};
    for (unsigned i = p->parameters; i-- > 0; number /= p->size[i]) s.value[i] = number % p->size[i];
    return s;
}

unsigned long state_number(const struct process *p, const struct state *s) {
    unsigned long number = 0;
    for (unsigned i = 0; i < p->parameters; i++) number = number * p->size[i] + s->value[i];
    return number;
}

bool same_state(const struct process *p, const struct state *a, const struct state *b) {
    for (unsigned i = 0; i < p->parameters; i++)
        if (a->value[i] != b->value[i]) return false;
    return true;
}

unsigned long state_count(const struct process *p) {
    unsigned long count = 1;
    for (unsigned i = 0; i < p->parameters; i++) count *= p->size[i];
    return count;
}

unsigned outside(const struct process *p, const struct state *s) {
    unsigned i = 0;
    while (i < p->parameters && s->value[i] < p->size[i]) i++;
    return i;
}

bool is_whole(const struct process *p, const struct state *s) {
    unsigned i = 0;
    while (i < p->parameters && s->value[i] != NO_VALUE) i++;
    return i == p->parameters;
}

/* ---- steps ---- */

bool enabled(const struct row *r, const struct state *s, unsigned sum) {
    return row_at(r, s, sum).told[LOOK_CONDITION] == LOOK_HOLDS;
}

struct state next_of(const struct row_look *look) {
    struct state next;
    for (unsigned i = 0; i < MAX_PARAMETERS; i++) next.value[i] = look->told[LOOK_NEXT + i];
    return next;
}

struct state next_state(const struct process *p, const struct row *r, const struct state *s, unsigned sum) {
    const struct row_look look = row_at(r, s, sum);
    (void)p;
    return next_of(&look);
}

unsigned data_number(const struct row *r, const struct state *s, unsigned sum) {
    return row_at(r, s, sum).told[LOOK_DATA];
}

const struct row *row_of(const struct process *p, unsigned action) {
    for (unsigned r = 0; r < p->rows; r++)
        if (p->row[r].action == action) return &p->row[r];
    return NULL;
}

bool marked(const struct row *r, const struct state *s, unsigned sum) {
    return row_at(r, s, sum).told[LOOK_MARK] == LOOK_HOLDS;
}

struct step first_internal_step(const struct process *p, const struct state *s) {
    for (const struct row *row = p->row; row < p->row + p->rows; row++)
        for (unsigned sum = 0; row->action == INTERNAL && sum < row->sums; sum++)
            if (enabled(row, s, sum)) return (struct step){row, sum};
    return (struct step){NULL, 0};
}

bool marked_step(const struct process *p, const struct state *s, struct step *at) {
    for (; at->row < p->row + p->rows; at->row++, at->sum = 0)
        for (; at->row->action == INTERNAL && at->sum < at->row->sums; at->sum++) {
            const struct row_look look = row_at(at->row, s, at->sum);
            if (look.told[LOOK_CONDITION] == LOOK_HOLDS && look.told[LOOK_MARK] == LOOK_HOLDS) return true;
        }
    return false;
}

bool focus_point(const struct process *p, const struct state *s) {
    struct step first = {p->row, 0};
    return !marked_step(p, s, &first);
}

struct step unmarked_step(const struct process *p, const struct state *s) {
    for (const struct row *row = p->row; row < p->row + p->rows; row++)
        for (unsigned sum = 0; row->action == INTERNAL && sum < row->sums; sum++)
            if (enabled(row, s, sum) && !marked(row, s, sum)) return (struct step){row, sum};
    return (struct step){NULL, 0};
}

bool invariant_holds(const struct table *t, const struct state *s) {
    return state_at(t, s).told[LOOK_INVARIANT] == LOOK_HOLDS;
}

struct state mapped(const struct table *t, const struct state *s) {
    const struct state_look look = state_at(t, s);
    struct state m;
    for (unsigned i = 0; i < MAX_PARAMETERS; i++) m.value[i] = look.told[LOOK_MAPPED + i];
    return m;
}

unsigned measure(const struct table *t, const struct state *s) {
    return state_at(t, s).told[LOOK_MEASURE];
}

bool keeps_invariant(const struct table *t, const struct state *next) {
    return outside(&t->impl, next) == t->impl.parameters && invariant_holds(t, next);
}

/* ---- in words ---- */

void print_state(struct output *out, const struct process *p, const struct state *s) {
    put(out, "(");
    for (unsigned i = 0; i < p->parameters; i++) print(out, "%s%u", i ? ", " : "", s->value[i]);
    put(out, ")");
}

void print_numbered(struct output *out, const struct process *p, const struct state *s) {
    if (outside(p, s) == p->parameters) print(out, "state %lu = ", state_number(p, s));
    print_state(out, p, s);
}
