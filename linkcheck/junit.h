/* The answers as JUnit XML, for a build server: a test suite with a test case for each file. */
#ifndef JUNIT_H
#define JUNIT_H

#include "answer.h"

struct junit {
    struct output cases;
    size_t tests, failures, errors;
};

/* Adds the answer, in words, for a file. */
void junit_add(struct junit *j, const char *name, const struct answer *a);

/* Writes the suite to the file: whole, or not at all. Gives 0, or the exit status after a message. */
int junit_write(struct junit *j, const char *file);

#endif
