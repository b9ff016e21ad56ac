/* Taking a design text apart: one pass for each turned-down number, in their order, so that the lowest is found. Each gives whether nothing
 * is wrong. What there is to say of a fault is in faults.c. */
#define _POSIX_C_SOURCE 200809L
#include "table.h"
#include "faults.h"
#include "terms.h"

#include <string.h>

static const struct { unsigned least, most; } lines_of[KINDS + 1] = {
    [IMPL_PARAMETER] = {1, MAX_PARAMETERS}, [SPEC_PARAMETER] = {1, MAX_PARAMETERS},
    [IMPL_ROW] = {0, MAX_ROWS}, [SPEC_ROW] = {0, MAX_ROWS},
    [INVARIANT] = {1, 1}, [MAPPING] = {1, 1}, [MEASURE] = {1, 1}, [MARKS] = {0, 1},
};

/* ---- 1, 2, 3: bytes to fields ---- */

/* The number in six columns; -1 if they hold none. */
static long column_number(const uint8_t *column) {
    int i = 0;
    long number = 0;
    while (i < COLUMNS && column[i] == ' ') i++;
    if (i == COLUMNS || (column[i] == '0' && i < COLUMNS - 1)) return -1;
    for (; i < COLUMNS; i++) {
        if (column[i] < '0' || column[i] > '9') return -1;
        number = 10 * number + (column[i] - '0');
    }
    return number <= UINT16_MAX ? number : -1;
}

static bool read_line(struct table *t, const uint8_t *bytes, size_t len) {
    struct line *line = &t->line[t->lines++];
    *line = (struct line){&t->field[t->fields], len / COLUMNS};
    for (size_t i = 0; i < line->count; i++) {
        long number = column_number(bytes + i * COLUMNS);
        if (number < 0) return false;
        t->field[t->fields++] = (uint16_t)number;
    }
    return len > 0 && len % COLUMNS == 0;
}

static bool read_lines(struct table *t, const uint8_t *text, size_t len) {
    for (size_t start = 0; start < len;) {
        const uint8_t *end = memchr(text + start, '\n', len - start);
        size_t length = end ? (size_t)(end - text) - start : len - start;
        if (!read_line(t, text + start, length) || !end) return false;
        start += length + 1;
    }
    return true;
}

static bool count_fields(const struct table *t) {
    for (size_t i = 0; i < t->lines; i++)
        if (t->line[i].count > MAX_LINE_FIELDS) return false;
    return t->fields <= MAX_FIELDS;
}

/* ---- 4: kinds ---- */

static bool check_kinds(const struct table *t) {
    unsigned count[KINDS + 1] = {0}, last = 0;
    for (size_t i = 0; i < t->lines; i++) {
        unsigned kind = t->line[i].field[0];
        size_t fields = t->line[i].count;
        if (kind < 1 || kind > KINDS || kind < last || ++count[kind] > lines_of[kind].most) return false;
        if (kind <= SPEC_PARAMETER && fields != 3) return false;
        if ((kind == IMPL_ROW || kind == SPEC_ROW) && fields < 3) return false;
        last = kind;
    }
    for (unsigned kind = 1; kind <= KINDS; kind++)
        if (count[kind] < lines_of[kind].least) return false;
    return true;
}

/* ---- 5: numbers ---- */

static bool read_parameter(struct process *p, const struct line *line) {
    unsigned size = line->field[1], initial = line->field[2];
    p->size[p->parameters] = size;
    p->initial[p->parameters++] = initial;
    return initial < size;
}

static bool read_row_head(struct process *p, const struct line *line) {
    unsigned span = line->field[2];
    p->row[p->rows++] = (struct row){.action = line->field[1], .span = span};
    return span >= 1 && span <= MAX_SPAN;
}

static bool read_numbers(struct table *t) {
    unsigned long states = 1;
    for (size_t i = 0; i < t->lines; i++) {
        const struct line *line = &t->line[i];
        bool right = true;
        switch (line->field[0]) {
        case IMPL_PARAMETER: right = read_parameter(&t->impl, line) && (states *= line->field[1]) <= MAX_STATES; break;
        case SPEC_PARAMETER: right = read_parameter(&t->spec, line); break;
        case IMPL_ROW: right = read_row_head(&t->impl, line); break;
        case SPEC_ROW: right = read_row_head(&t->spec, line); break;
        }
        if (!right) return false;
    }
    return true;
}

/* ---- 6: terms ---- */

static void read_row_terms(struct row *row, struct scan *s, unsigned parameters) {
    row->condition = scan_formula(s);
    row->data = scan_value(s);
    row->next = s->at;
    for (unsigned i = 0; i < parameters; i++) scan_value(s);
}

/* A formula for each internal row, in row order. */
static void read_marks(struct process *p, struct scan *s) {
    for (unsigned r = 0; r < p->rows; r++)
        if (p->row[r].action == INTERNAL) p->row[r].mark = scan_formula(s);
}

/* A look at the terms of a line. */
static struct scan terms_of(const struct table *t, const struct line *line) {
    const unsigned kind = line->field[0];
    const bool row = kind == IMPL_ROW || kind == SPEC_ROW;
    return (struct scan){
        .at = line->field + (row ? 3 : 1), .end = line->field + line->count,
        .parameters = kind == SPEC_ROW ? t->spec.parameters : t->impl.parameters, .has_sum = row || kind == MARKS,
    };
}

static bool read_terms(struct table *t) {
    unsigned impl_rows = 0, spec_rows = 0;
    for (size_t i = 0; i < t->lines; i++) {
        const struct line *line = &t->line[i];
        unsigned kind = line->field[0];
        if (kind <= SPEC_PARAMETER) continue;
        struct scan s = terms_of(t, line);
        switch (kind) {
        case IMPL_ROW: read_row_terms(&t->impl.row[impl_rows++], &s, t->impl.parameters); break;
        case SPEC_ROW: read_row_terms(&t->spec.row[spec_rows++], &s, t->spec.parameters); break;
        case INVARIANT: t->invariant = scan_formula(&s); break;
        case MAPPING:
            t->mapping = s.at;
            for (unsigned v = 0; v < t->spec.parameters; v++) scan_value(&s);
            break;
        case MEASURE: t->measure = scan_value(&s); break;
        case MARKS:
            t->has_marks = true;
            read_marks(&t->impl, &s);
            break;
        }
        if (s.wrong || s.at != s.end) return false;
    }
    return true;
}

/* ---- 7: actions ---- */

static bool visible_once(const struct process *p) {
    for (unsigned r = 0; r < p->rows; r++)
        for (unsigned q = 0; q < r; q++)
            if (p->row[r].action != INTERNAL && p->row[r].action == p->row[q].action) return false;
    return true;
}

static bool check_internal(const struct table *t) {
    for (unsigned r = 0; r < t->impl.rows; r++) {
        const struct row *row = &t->impl.row[r];
        if (row->action == INTERNAL && (row->data[0] != NUMBER || row->data[1] != 0)) return false;
    }
    for (unsigned r = 0; r < t->spec.rows; r++)
        if (t->spec.row[r].action == INTERNAL) return false;
    return true;
}

static bool check_spans(const struct table *t) {
    for (unsigned r = 0; r < t->spec.rows; r++)
        for (unsigned q = 0; q < t->impl.rows; q++) {
            const struct row *ours = &t->spec.row[r], *boards = &t->impl.row[q];
            if (ours->action == boards->action && ours->span != boards->span) return false;
        }
    return true;
}

size_t line_of(const struct table *t, term at) {
    size_t i = 0;
    while (at >= t->line[i].field + t->line[i].count) i++;
    return file_line(t, i + 1);
}

struct fault table_read(struct table *t, const struct text *text) {
    t->text = text;
    t->fields = t->lines = 0;
    t->impl.parameters = t->impl.rows = t->spec.parameters = t->spec.rows = 0;
    t->has_marks = false;
    if (text->len > MAX_TEXT) return fault_of(text, 1);
    if (!read_lines(t, text->bytes, text->len)) return fault_of(text, 2);
    if (!count_fields(t)) return fault_of(text, 3);
    if (!check_kinds(t)) return fault_of(text, 4);
    if (!read_numbers(t)) return fault_of(text, 5);
    if (!read_terms(t)) return fault_of(text, 6);
    if (!visible_once(&t->impl) || !visible_once(&t->spec) || !check_internal(t) || !check_spans(t)) return fault_of(text, 7);
    return (struct fault){.number = 0};
}
