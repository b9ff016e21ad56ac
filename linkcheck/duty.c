/* Tables held against the buyer's own specification. */
#define _POSIX_C_SOURCE 200809L
#include "duty.h"
#include "faults.h"
#include "names.h"
#include "state.h"
#include "terms.h"
#include "verdict.h"

#include <stdlib.h>
#include <string.h>

static struct {
    bool given;
    struct text text;
    struct table table;
} duty;

/* ---- the duty itself ---- */

static int duty_turned_down(const char *name, unsigned number) {
    const struct fault fault = fault_of(&duty.text, number);
    struct output *m = message();
    put(m, "the duty ");
    put_name(m, name);
    put(m, ": ");
    print_turned_down(m, &fault);
    return message_sent(m, STATUS_UNREAD);
}

int duty_read(const char *name) {
    struct text *t = &duty.text;
    struct held_design *held = &duty.table.held;
    const int error = text_read(t, name);
    if (error) return complain(STATUS_UNREAD, name, strerror(error));
    if (t->slips) return duty_turned_down(name, 0);
    const uint32_t number = hold_design(t->bytes, t->len, held->fields, held->starts, held->counts);
    if (number) return duty_turned_down(name, number);
    if (same_duty(t->bytes, t->len, t->bytes, t->len) != DUTY_SAME) return complain(STATUS_UNREAD, name, other_rules);
    if (table_read(&duty.table, t).number) return complain(STATUS_UNREAD, name, other_rules);
    duty.given = true;
    return 0;
}

uint32_t duty_answer(const struct text *t) {
    return duty.given ? same_duty(t->bytes, t->len, duty.text.bytes, duty.text.len) : DUTY_SAME;
}

/* ---- the first line that differs ---- */

/* A line of the specification in the table and in the duty; the one that isn't there is NULL. */
struct pair {
    unsigned kind, number; /* number: of the parameter, from 0, or of the row, from 1 */
    const struct line *has, *due;
};

/* The line with this index among those of a kind; NULL if there are fewer. */
static const struct line *line_at(const struct table *t, unsigned kind, size_t index) {
    for (size_t i = 0; i < t->lines; i++)
        if (t->line[i].field[0] == kind && index-- == 0) return &t->line[i];
    return NULL;
}

static bool same_fields(const uint16_t *a, const uint16_t *a_end, const uint16_t *b, const uint16_t *b_end) {
    return a_end - a == b_end - b && memcmp(a, b, (size_t)(a_end - a) * sizeof *a) == 0;
}

static bool same_line(const struct line *a, const struct line *b) {
    return same_fields(a->field, a->field + a->count, b->field, b->field + b->count);
}

/* The first lines of the kind that differ. Gives whether there are any. */
static bool differ(const struct table *t, unsigned kind, struct pair *p) {
    for (unsigned index = 0;; index++) {
        *p = (struct pair){kind, kind == SPEC_ROW ? index + 1 : index, line_at(t, kind, index), line_at(&duty.table, kind, index)};
        if (!p->has && !p->due) return false;
        if (!p->has || !p->due || !same_line(p->has, p->due)) return true;
    }
}

static bool difference(const struct table *t, struct pair *p) {
    return differ(t, SPEC_PARAMETER, p) || differ(t, SPEC_ROW, p);
}

static size_t place_of(const struct table *t, const struct line *line) {
    return file_line(t, (size_t)(line - t->line) + 1);
}

/* ---- in words ---- */

/* A part of a row: a term, and what it is. */
struct part {
    const char *what; /* NULL for a next value */
    int parameter;    /* of a next value; -1 if it is none */
    bool formula;
    term has, due;
};

/* The first term of the two rows that differs, which may be the last next value. */
static struct part part_of(const struct row *has, const struct row *due, int parameters) {
    struct part p = {"condition", -1, true, has->condition, due->condition};
    while (p.parameter + 1 < parameters && same_fields(p.has, passed(p.has), p.due, passed(p.due))) {
        if (p.formula) p = (struct part){"data", -1, false, has->data, due->data};
        else if (p.parameter < 0) p = (struct part){NULL, 0, false, has->next, due->next};
        else p = (struct part){NULL, p.parameter + 1, false, passed(p.has), passed(p.due)};
    }
    return p;
}

static void print_fields(struct output *out, const uint16_t *at, const uint16_t *end) {
    put(out, "fields");
    while (at < end) print(out, " %u", *at++);
}

/* The term in infix, or its fields where two terms look alike in infix. */
static void put_term(struct output *out, const struct part *p, term t, bool alike) {
    if (alike) print_fields(out, t, passed(t));
    else if (p->formula) print_formula(out, t, 'q');
    else print_value(out, t, 'q');
}

static bool look_alike(const struct part *p) {
    struct output a = {.file = KEPT}, b = {.file = KEPT};
    put_term(&a, p, p->has, false);
    put_term(&b, p, p->due, false);
    if (a.error || b.error) no_memory();
    const bool alike = a.length == b.length && memcmp(a.bytes, b.bytes, a.length) == 0;
    free(a.bytes);
    free(b.bytes);
    return alike;
}

static void put_part(struct output *out, const struct part *p, term t, bool alike) {
    if (p->parameter >= 0) print(out, "q%d := ", p->parameter);
    else print(out, "%s ", p->what);
    put_term(out, p, t, alike);
}

static void print_terms(struct output *out, const struct part *p, size_t line) {
    const bool alike = look_alike(p);
    put_part(out, p, p->has, alike);
    print(out, ", the duty (line %zu) ", line);
    put_part(out, p, p->due, alike);
}

static void print_rows(struct output *out, const struct table *t, const struct pair *p, size_t line) {
    const struct row *has = &t->spec.row[p->number - 1], *due = &duty.table.spec.row[p->number - 1];
    if (has->action != due->action) {
        print(out, "action %u, the duty (line %zu) action %u", has->action, line, due->action);
    } else if (has->span != due->span) {
        print(out, "span %u, the duty (line %zu) span %u", has->span, line, due->span);
    } else {
        const struct part part = part_of(has, due, (int)t->spec.parameters);
        print_terms(out, &part, line);
    }
}

static void print_parameters(struct output *out, const struct pair *p, size_t line) {
    const uint16_t *has = p->has->field, *due = p->due->field;
    print(out, "size %u and initial value %u, the duty (line %zu) size %u and initial value %u", has[1], has[2], line, due[1], due[2]);
}

static void print_what(struct output *out, const struct pair *p, const struct line *line) {
    if (p->kind == SPEC_PARAMETER) print(out, "parameter q%u", p->number);
    else print(out, "row %u (action %u) of the specification", p->number, line->field[1]);
}

static void print_pair(struct output *out, const struct table *t, const struct pair *p) {
    if (!p->has) {
        print_what(out, p, p->due);
        print(out, " is missing, the duty has it (line %zu)", place_of(&duty.table, p->due));
        return;
    }
    print_what(out, p, p->has);
    if (!p->due) {
        put(out, " is not in the duty");
        return;
    }
    const size_t line = place_of(&duty.table, p->due);
    put(out, " has ");
    if (p->kind == SPEC_ROW) print_rows(out, t, p, line);
    else print_parameters(out, p, line);
}

void print_other_duty(struct output *out, const struct table *t) {
    struct pair p;
    put(out, "other duty");
    if (!difference(t, &p)) return;
    if (p.has) print(out, ", line %zu", place_of(t, p.has));
    put(out, ": ");
    print_pair(out, t, &p);
}

void json_other_duty(struct output *out, const struct table *t) {
    struct pair p;
    if (!difference(t, &p)) return;
    if (p.has) print(out, ",\"line\":%zu", place_of(t, p.has));
    if (p.due) print(out, ",\"duty_line\":%zu", place_of(&duty.table, p.due));
    put(out, ",\"difference\":\"");
    print_pair(out, t, &p); /* it has no character to escape */
    put(out, "\"");
}
