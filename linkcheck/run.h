/* Checking a list of files, in one process or several. */
#ifndef RUN_H
#define RUN_H

#include "answer.h"

enum { MOST_PROCESSES = 256 };

/* What is asked of a run. */
struct request {
    enum format format;
    size_t processes;
    bool quiet;        /* no line for a table that is accepted, as it is or after a first internal step */
    bool coloured;     /* in words, the verdict's own words have a colour */
    const char *junit; /* the file for JUnit XML; NULL for none */
};

/* Checks the files and writes their answers in order, in words with a summary line at the end. Gives the exit status: that of the gravest
 * result. */
int run(const struct paths *paths, const struct request *asked);

#endif
