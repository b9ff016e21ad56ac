/* The smallest measure of a table, which measure_design makes, and what serves to tell of it. */
#ifndef MEASURE_H
#define MEASURE_H

#include "answer.h"
#include "output.h"
#include "runs.h"
#include "verdict.h"

struct measured {
    unsigned outcome; /* MEASURE_FILLED, MEASURE_LOOP or MEASURE_TURNED_DOWN */
    uint32_t given;   /* the number that measure_design gave */
    uint16_t number[MEASURE_PLACES]; /* the smallest measure of each state */

    bool whole;         /* the table is read and held */
    bool fits;          /* what is found there fits the answer; else none of what follows is told */
    struct table table; /* if it is whole */
    unsigned states;

    uint32_t own[MEASURE_PLACES]; /* filled: the text's own measure of each state, or NO_VALUE; 0 where the invariant does not hold */
    unsigned largest;             /* the lowest state with the largest number */
    bool own_meets;               /* the text's own measure has a value where the invariant holds, and meets criterion 5 */
    unsigned above;               /* the lowest state where it is above the smallest by most */
    struct failure own_failure;   /* the lowest state where it fails criterion 10 or 5, and the step that fails 5 */

    struct stop loop[MEASURE_PLACES]; /* a loop: its states and marked steps in order, from the state that was named */
    size_t length;

    struct fault fault;     /* turned down; its line is 0 and its words are empty for 18 */
    struct failure failure; /* for 18, the lowest state where criterion 10, the measure apart, or 3 fails, and the step that fails 3 */
};

/* By how much the text's own measure is above the smallest in a state. */
unsigned excess(const struct measured *m, unsigned state);

/* Writes what there is to say of a measure for the table in a file, or in standard input for "-": in words, or as a JSON object on a line.
 * Gives the exit status: 0 for a measure, 1 for a loop, 2 for a text that is turned down, 3 if it could not be read. */
int write_measure(struct output *out, const char *name, enum format format);

#endif
