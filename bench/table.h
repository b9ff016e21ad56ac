/* A design text as the arrays of a desk: the fields of all lines one after the other, and where each line starts. The text is taken to
 * be one that is not turned down. */
#ifndef TABLE_H
#define TABLE_H
#include <stdint.h>
#include <stdio.h>
#include <stdlib.h>
#include <string.h>

struct table {
    uint16_t fields[4096];
    uint16_t starts[85];
    size_t kind[9]; /* how many lines of each kind */
    size_t states;
};

static void read_table(const char *name, struct table *t)
{
    FILE *f = fopen(name, "rb");
    if (!f) { perror(name); exit(2); }
    memset(t, 0, sizeof *t);
    char line[256 * 6 + 2];
    size_t at = 0, lines = 0;
    while (fgets(line, sizeof line, f)) {
        size_t n = strlen(line) / 6;
        t->starts[lines++] = at;
        for (size_t i = 0; i < n; i++) {
            char column[7] = {0};
            memcpy(column, line + 6 * i, 6);
            t->fields[at + i] = atoi(column);
        }
        t->kind[t->fields[at]]++;
        at += n;
    }
    t->starts[lines] = at;
    fclose(f);
    t->states = 1;
    for (size_t i = 0; i < t->kind[1]; i++) t->states *= t->fields[t->starts[i] + 1];
}

#endif
