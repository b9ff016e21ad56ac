/* Values and formulas in prefix order: scanned, taken apart, and written in infix. Their values are for look_value and look_formula to say.
 * A remainder by zero has no value, nor has a term that evaluates one: a `6` evaluates the branch that it takes, every other term all its
 * parts. */
#ifndef TERMS_H
#define TERMS_H

#include "output.h"
#include "table.h"

#include <stdbool.h>

/* The marks of values and of formulas. */
enum { NUMBER = 0, PARAMETER, SUM_VALUE, SUM, DIFFERENCE, REMAINDER, CHOICE };
enum { TRUE = 10, FALSE, EQUAL, LESS, NOT, AND, OR };
enum { MAX_DEPTH = 32 };

/* A look at the fields of a line, which moves past one term after the other until something is wrong. */
struct scan {
    const uint16_t *at, *end;
    unsigned parameters;
    bool has_sum;      /* the sum value may occur */
    const char *wrong; /* NULL, or what is wrong at `at` */
};

/* Both give where the term starts. */
term scan_value(struct scan *s);
term scan_formula(struct scan *s);

/* What stands for the value of a term that has none. It is no number, and below no size. */
enum { NO_VALUE = LOOK_NO_VALUE };

/* Where a term of a table is evaluated: for these values of the parameters, 0 after the last, and this sum value. */
struct point {
    const struct table *table;
    uint16_t values[LOOK_VALUES];
    uint16_t sum;
};

/* The first remainder by zero that a term evaluates. A term has a value exactly if it evaluates none. */
struct gap {
    term at; /* NULL if there is none */
    unsigned dividend;
};
struct gap gap_in(term t, const struct point *p);

/* The first that fails of the formulas which a formula joins by `and`; NULL if none does. */
term failing_conjunct(term f, const struct point *p);

/* What a term reads: bit i for parameter i, READS_SUM for the sum value. `passed` gives where the term ends. */
enum { READS_SUM = 1 << MAX_PARAMETERS };
unsigned reads_of(term t);
term passed(term t);

/* The parameters that a formula can hold for one value alone, as it says so itself, joined by `and`: p0 = 2. */
unsigned pinned_by(term f);

/* Writes a term in infix, with brackets where they are needed; parameter i is the letter with i. Gives where the term ends. */
term print_value(struct output *out, term v, char letter);
term print_formula(struct output *out, term f, char letter);

/* Writes a formula with other words than " and " between those that it joins. */
void print_conjuncts(struct output *out, term f, char letter, const char *between);

/* Writes what is read, as reads_of has it, with its values there, as " with p2 = 0"; nothing if nothing is read. */
void print_reads(struct output *out, unsigned reads, char letter, const struct point *p);

#endif
