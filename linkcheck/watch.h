/* A check that may take long: how far it has come, and when it has had its time. */
#ifndef WATCH_H
#define WATCH_H

#include <stdbool.h>
#include <stddef.h>

struct watch {
    double seconds;                              /* that a table may take, by --timeout; 0 if it may take any time */
    void (*tell)(size_t examined, size_t states); /* called some times a second; NULL if nobody wants to know */
};
extern struct watch watch;

/* Whether a check has to be watched. */
bool watching(void);

/* Seconds on a clock that only goes on. */
double seconds_now(void);

/* The time of a table starts now; whether it is over, which it never is if there is no timeout. */
void time_starts(void);
bool time_is_over(void);

#endif
