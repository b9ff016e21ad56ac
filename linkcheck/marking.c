/* A table's text with a line of kind 8, and without it. What is written, and whether, is for mark_design and unmark_design to say. Where
 * linkcheck's own reading comes to another number, there are no words beside theirs. */
#define _POSIX_C_SOURCE 200809L
#include "explain.h"
#include "names.h"
#include "show.h"
#include "terms.h"

#include <stdio.h>
#include <string.h>

/* The first row with another mark than `10`, in words. */
static struct fault other_formula(const struct table *t) {
    struct fault f = {0};
    for (unsigned r = t->impl.rows; r-- > 0;) {
        const term mark = t->impl.row[r].mark;
        if (!mark || mark[0] == TRUE) continue;
        f = (struct fault){.number = MARK_OTHER_FORMULA, .line = file_line(t, t->lines)};
        snprintf(f.words, sizeof f.words, "the formula of row %u is not 10", r + 1);
    }
    return f;
}

/* How many fields there would be, if that is too many. */
static struct fault too_many_fields(const struct table *t) {
    struct fault f = {0};
    size_t fields = t->fields + 1;
    for (unsigned r = 0; r < t->impl.rows; r++) fields += t->impl.row[r].action == INTERNAL;
    if (t->has_marks || fields <= MAX_FIELDS) return f;
    f.number = MARK_TOO_LONG;
    snprintf(f.words, sizeof f.words, "%zu fields with the line of kind 8, at most %d in all", fields, MAX_FIELDS);
    return f;
}

/* Why there is no result; its number is 0 if there is one. */
static struct fault refusal_of(const struct text *text, enum sort sort) {
    static struct table table;
    const struct fault f = table_read(&table, text);
    if (f.number) return f;
    return sort == MARKED ? too_many_fields(&table) : other_formula(&table);
}

int write_sort(struct output *out, const char *name, enum sort sort) {
    static struct text text;
    static uint8_t result[MARK_RESULT_BYTES];
    uint32_t number;
    const int error = text_read(&text, name);
    if (error) return complain(STATUS_UNREAD, name, strerror(error));
    const struct fault no_numbers = fault_of(&text, 0);
    if (text.slips) return turn_down(name, &no_numbers);
    const size_t length = (sort == MARKED ? mark_design : unmark_design)(text.bytes, text.len, result, sizeof result, &number);
    if ((length == 0) != (number != MARK_DONE) || length > sizeof result) return complain(STATUS_UNREAD, name, other_rules);
    struct fault f = refusal_of(&text, sort);
    if (number != f.number) f = fault_of(&text, number);
    if (number != MARK_DONE) return turn_down(name, &f);
    put_bytes(out, result, length);
    return 0;
}
