/* How far a run has come, told on standard error if that is a terminal: a second after the start, and from then on once a second. If it
 * can't be told, nothing is lost. */
#ifndef PROGRESS_H
#define PROGRESS_H

#include <stdbool.h>
#include <stddef.h>

struct progress {
    bool wanted, shown;
    bool in_the_way; /* the answers go to the terminal too */
    double last;
    size_t done, all;
};

struct progress progress_start(size_t all);
void progress_clear(struct progress *p);

/* Tells how many tables are done, if it is time for that; and how far the check of a table has come. */
void progress_tell(struct progress *p);
void progress_tell_table(struct progress *p, const char *name, size_t examined, size_t states);

#endif
