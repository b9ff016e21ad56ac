/* The files that are to be checked, in order. */
#ifndef PATHS_H
#define PATHS_H

#include "verdict.h"

/* A file, or what could not be read instead. */
struct path {
    char *name;
    char *wrong;       /* why it could not; NULL for a file */
    struct text *text; /* of one that is read already; NULL for one that is still to be read */
};

struct paths {
    const char *pattern; /* by which files in folders are taken for tables, as fnmatch has it */
    struct path *path;
    size_t count, room;
};

/* Adds a file, whatever its name, or the files of a folder and of the folders in it whose names fit the pattern, in name order. In a
 * folder, names that begin with a dot are left out; a folder without any table counts as one that could not be read. Standard input, pipes
 * and devices, which give their bytes but once, are read at this point. */
void paths_add(struct paths *p, const char *name);

void paths_free(struct paths *p);

#endif
