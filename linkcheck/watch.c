/* A check that may take long. */
#define _POSIX_C_SOURCE 200809L
#include "watch.h"

#include <time.h>

struct watch watch;
static double started;

bool watching(void) {
    return watch.seconds > 0 || watch.tell;
}

double seconds_now(void) {
    struct timespec now = {0};
    clock_gettime(CLOCK_MONOTONIC, &now);
    return (double)now.tv_sec + (double)now.tv_nsec / 1e9;
}

void time_starts(void) {
    started = seconds_now();
}

bool time_is_over(void) {
    return watch.seconds > 0 && seconds_now() - started >= watch.seconds;
}
