/* turns ROUNDS FUNCTION THIS OTHER TEXT..: check_design or bench_load of two shared libraries on each text, in turn, ROUNDS times; the least
 * time of each counts, as that with the least other work beside it. Prints this one's time over the other's, then the geometric mean and the
 * highest of these, and how many are above 1.05. */
#define _POSIX_C_SOURCE 200809L
#include <dlfcn.h>
#include <math.h>
#include <stdbool.h>
#include <stdio.h>
#include <stdlib.h>
#include <string.h>
#include <time.h>
#include "../include/checker.h"

enum { THIS, OTHER, BOTH };

typedef uint32_t check(const uint8_t *, size_t, uint8_t *, size_t);
typedef uint32_t load(const uint8_t *, size_t);

/* What is timed of a library: one of the two, and what it last gave. */
struct timed {
    check *check;
    load *load;
    uint32_t number;
    uint8_t report[CHECK_REPORT_BYTES];
};

static uint8_t text[1 << 16];
static size_t len;

static double now(void)
{
    struct timespec t;
    clock_gettime(CLOCK_PROCESS_CPUTIME_ID, &t);
    return t.tv_sec + t.tv_nsec * 1e-9;
}

static struct timed timed_of(const char *library, const char *function)
{
    struct timed t = {0};
    void *handle = dlopen(library, RTLD_NOW | RTLD_LOCAL);
    const bool load = strcmp(function, "bench_load") == 0;
    void *symbol = handle ? dlsym(handle, function) : NULL;
    if (handle && load && !symbol) symbol = dlsym(handle, "desk_load"); /* its name before 4.0.0 */
    if (!symbol) { fprintf(stderr, "%s: %s\n", library, dlerror()); exit(1); }
    if (load) memcpy(&t.load, &symbol, sizeof symbol);
    else memcpy(&t.check, &symbol, sizeof symbol);
    return t;
}

static double once(struct timed *t, long times)
{
    double start = now();
    for (long i = 0; i < times; i++) t->number = t->check ? t->check(text, len, t->report, sizeof t->report) : t->load(text, len);
    return (now() - start) / times;
}

int main(int n, char **words)
{
    int rounds = n > 5 ? atoi(words[1]) : 0;
    if (rounds < 1) { fprintf(stderr, "usage: turns ROUNDS FUNCTION THIS OTHER TEXT..\n"); return 2; }
    struct timed timed[BOTH] = {timed_of(words[3], words[2]), timed_of(words[4], words[2])};
    double logs = 0, highest = 0;
    const char *highest_name = "";
    int slower = 0;
    printf("%-12s %-39s %6s %12s %12s %8s\n", words[2], "least of so many rounds, microseconds", "answer", "this", "other", "ratio");
    for (int i = 5; i < n; i++) {
        FILE *f = fopen(words[i], "rb");
        if (!f) { perror(words[i]); return 1; }
        len = fread(text, 1, sizeof text, f);
        fclose(f);
        double least[BOTH] = {0};
        long times[BOTH];
        for (int r = 0; r < rounds; r++)
            for (int k = THIS; k < BOTH; k++) {
                if (r == 0) {
                    double first = once(&timed[k], 1);
                    times[k] = first < 0.005 ? (long)(0.005 / (first + 1e-9)) + 1 : 1;
                }
                double took = once(&timed[k], times[k]);
                if (r == 0 || took < least[k]) least[k] = took;
            }
        if (timed[THIS].number != timed[OTHER].number || memcmp(timed[THIS].report, timed[OTHER].report, CHECK_REPORT_BYTES)) {
            fprintf(stderr, "%s: two answers\n", words[i]);
            return 1;
        }
        double ratio = least[THIS] / least[OTHER];
        printf("%-52s %6u %12.3f %12.3f %8.3f\n", words[i], timed[THIS].number, 1e6 * least[THIS], 1e6 * least[OTHER], ratio);
        fflush(stdout);
        logs += log(ratio);
        slower += ratio > 1.05;
        if (ratio > highest) { highest = ratio; highest_name = words[i]; }
    }
    printf("%d texts, geometric mean %.3f; %d above 1.05; the highest is %.3f, of %s\n", n - 5, exp(logs / (n - 5)), slower, highest, highest_name);
}
