/* A table for a person. The implementation's parameters are p0, p1, ..; the specification's are q0, q1, ..; s is the sum value. A mark is
 * shown beside its row. */
#define _POSIX_C_SOURCE 200809L
#include "show.h"
#include "terms.h"

#include <stdlib.h>

/* A line that would be longer is broken, at `and` and between the parts of a row. */
enum { LONGEST_LINE = 100 };

static void show_parameters(struct output *out, const struct process *p, char letter) {
    for (unsigned i = 0; i < p->parameters; i++)
        print(out, "  %c%u of size %u, initially %u\n", letter, i, p->size[i], p->initial[i]);
}

/* The next values of the parameters that do not keep theirs. */
static void show_next(struct output *out, const struct process *p, const struct row *row, char letter) {
    const char *before = "";
    term next = row->next;
    for (unsigned i = 0; i < p->parameters; i++) {
        if (next[0] == PARAMETER && next[1] == i) {
            next += 2;
            continue;
        }
        print(out, "%s%c%u := ", before, letter, i);
        next = print_value(out, next, letter);
        before = ", ";
    }
    if (!*before) put(out, "no change");
}

/* The row's action with its data, after its sum values. */
static void show_action(struct output *out, const struct row *row, char letter) {
    if (row->span > 1) print(out, "for s below %u, ", row->span);
    if (row->action == INTERNAL) {
        put(out, "tau");
    } else {
        print(out, "a%u(", row->action);
        print_value(out, row->data, letter);
        put(out, ")");
    }
}

/* Writes a line that is kept, if it is short enough. Gives whether it was. */
static bool show_if_short(struct output *out, struct output *line) {
    const bool is_short = line->length <= LONGEST_LINE;
    if (line->error) no_memory();
    if (is_short) put_bytes(out, line->bytes, line->length);
    free(line->bytes);
    return is_short;
}

/* A formula after some words, on one line if that is short enough; else with a line for each of those that it joins, after other words. */
static void show_formula(struct output *out, const char *words, const char *and_words, term f, char letter) {
    struct output line = {.file = KEPT};
    put(&line, words);
    print_formula(&line, f, letter);
    if (show_if_short(out, &line)) return;
    put(out, words);
    print_conjuncts(out, f, letter, and_words);
}

static bool show_row_on_a_line(struct output *out, const struct process *p, const struct row *row, char letter) {
    struct output line = {.file = KEPT};
    print(&line, "  row %td: ", row - p->row + 1);
    show_action(&line, row, letter);
    put(&line, " when ");
    print_formula(&line, row->condition, letter);
    put(&line, ", then ");
    show_next(&line, p, row, letter);
    if (row->mark) {
        put(&line, "; marked when ");
        print_formula(&line, row->mark, letter);
    }
    return show_if_short(out, &line);
}

/* A row, on one line or with a line for each of its parts. */
static void show_row(struct output *out, const struct process *p, const struct row *row, char letter) {
    if (!show_row_on_a_line(out, p, row, letter)) {
        print(out, "  row %td: ", row - p->row + 1);
        show_action(out, row, letter);
        show_formula(out, "\n    when ", "\n     and ", row->condition, letter);
        put(out, "\n    then ");
        show_next(out, p, row, letter);
        if (row->mark) show_formula(out, "\n    marked when ", "\n     and ", row->mark, letter);
    }
    put(out, "\n");
}

static void show_process(struct output *out, const struct process *p, char letter) {
    show_parameters(out, p, letter);
    for (unsigned r = 0; r < p->rows; r++) show_row(out, p, &p->row[r], letter);
}

void show_table(struct output *out, const struct table *t) {
    put(out, "implementation\n");
    show_process(out, &t->impl, 'p');
    put(out, "specification\n");
    show_process(out, &t->spec, 'q');
    put(out, "invariant\n");
    show_formula(out, "  ", "\n  and ", t->invariant, 'p');
    put(out, "\nmapping\n");
    term value = t->mapping;
    for (unsigned i = 0; i < t->spec.parameters; i++) {
        print(out, "  q%u = ", i);
        value = print_value(out, value, 'p');
        put(out, "\n");
    }
    put(out, "measure\n  ");
    print_value(out, t->measure, 'p');
    put(out, "\n");
    if (!t->has_marks) put(out, "marks\n  none given: all internal steps are marked\n");
}
