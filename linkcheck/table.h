/* A design text taken apart: its fields, its two processes, its invariant, mapping, measure and marks; or the place of its fault.
 * Whether a text is turned down is for check_design to say. What is here serves the words that a person reads. */
#ifndef TABLE_H
#define TABLE_H

#include "../include/checker.h"

#include <stdbool.h>
#include <stddef.h>
#include <stdint.h>

enum {
    MAX_TEXT = CHECK_TEXT_BYTES,
    MAX_FIELDS = 4096,
    MAX_LINE_FIELDS = 256,
    MAX_PARAMETERS = 8,
    MAX_ROWS = 32,
    MAX_SPAN = 256,
    MAX_STATES = 65536,
    COLUMNS = 6,
    INTERNAL = 0, /* the action of an internal step */
};

/* The kinds of a line. */
enum { IMPL_PARAMETER = 1, SPEC_PARAMETER, IMPL_ROW, SPEC_ROW, INVARIANT, MAPPING, MEASURE, MARKS, KINDS = MARKS };

/* A term is its fields in prefix order, from the first on. */
typedef const uint16_t *term;

struct row {
    unsigned action, span;
    term condition, data, next; /* next: one value for each parameter, one after the other */
    term mark;                  /* of an internal row: the formula that its marked steps meet; NULL if all its steps are marked */

    /* Of a table that is held. */
    const struct table *table;
    unsigned side, number; /* LOOK_IMPLEMENTATION or LOOK_SPECIFICATION; counted from 1 */
    unsigned sums;         /* how many sum values there are to look at: the span, or 1 if no term of the row reads the sum value */
};

struct process {
    unsigned parameters, rows;
    unsigned size[MAX_PARAMETERS], initial[MAX_PARAMETERS];
    struct row row[MAX_ROWS]; /* row r of a report is row[r - 1] */
};

struct line {
    const uint16_t *field;
    size_t count;
};

struct text;

/* A table points into itself: it is filled where it stays. */
struct table {
    const struct text *text; /* what it was taken from, which stays too */
    uint16_t field[MAX_TEXT / COLUMNS];
    struct line line[MAX_TEXT / COLUMNS];
    size_t fields, lines;
    struct process impl, spec;
    term invariant, mapping, measure;
    bool has_marks; /* there is a line of kind 8 */

    struct held_design held; /* the same as hold_design has it: terms are evaluated there */
};

/* The line of the file that a term begins in, counted from 1. */
size_t line_of(const struct table *t, term at);

/* Why a text is turned down. */
struct fault {
    unsigned number;         /* 1 to 7, 15 or 16 of a writer, 18 of a measure; 0 for none, or of a typed file that isn't numbers */
    unsigned criterion;      /* of 18: the one that fails, 3 or 10 */
    const struct text *text; /* what shows it in its lines, which stays; NULL if nothing does */
    size_t line;             /* of 15 and 16: the file's line, 0 if it is no single line's; and words */
    char words[120];
};

/* Takes the text apart. Gives the lowest fault; the table is whole if there is none. */
struct fault table_read(struct table *t, const struct text *text);

#endif
