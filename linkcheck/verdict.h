/* A text with its verdict, which check_design or a desk gives, and with what serves to explain it. */
#ifndef VERDICT_H
#define VERDICT_H

#include "../include/checker.h"
#include "state.h"
#include "table.h"
#include "typed.h"

#include <stdbool.h>

/* A criterion that does not hold, and where. The row is counted from 1, and 0 if there is none. */
struct failure {
    unsigned criterion, state, row, sum;
    bool measure_apart; /* of criterion 10: what the measure lacks doesn't count */
};

struct verdict {
    uint8_t report[CHECK_REPORT_BYTES];
    unsigned outcome;       /* CHECK_ACCEPTED, CHECK_ACCEPTED_AFTER_INTERNAL, CHECK_FAILED or CHECK_TURNED_DOWN */
    struct failure failure; /* of a failed one */
    struct fault fault;     /* of a text turned down; its line is 0 and its words are empty if it isn't found */

    bool other_duty;         /* it has another specification than the duty: nothing was checked, and there is no outcome */
    bool unfinished;         /* its time was over before there was an outcome */
    size_t examined, states; /* of one that isn't finished: how many states were examined, and are to be */

    bool whole;         /* the table is read and held, so that it can be looked at */
    bool fits;          /* what is found there fits the verdict, so that it can be told of it */
    struct table table; /* if it is whole */
    struct step first;  /* of one accepted after a first internal step: the first that is enabled in the initial state */
};

/* Holds the text against the duty, if there is one, and checks it. Everything that decides comes from same_duty and check_design, or from a
 * desk, which decides the same, where the check is watched; where what linkcheck finds doesn't fit, as after a change of the rules in one
 * of the two, the verdict stays. Gives false if what the library says is no verdict. */
bool verdict_of(struct verdict *v, const struct text *t);

/* What there is to say then, and wherever the library's answer is none. */
extern const char other_rules[];

#endif
