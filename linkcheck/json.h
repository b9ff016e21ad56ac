/* A verdict, and a measure, as a JSON object on one line. */
#ifndef JSON_H
#define JSON_H

#include "measure.h"
#include "output.h"
#include "verdict.h"

/* An object, without byte 10, for a table. */
void json_verdict(struct output *out, const char *name, const struct verdict *v);
void json_measure(struct output *out, const char *name, const struct measured *m);

/* What an object begins with: the file, and this member, "verdict" or "measure". */
void json_begin(struct output *out, const char *name, const char *member, const char *what);

/* One for a file that could not be read, in place of one with this member, "verdict" or "measure". */
void json_unreadable(struct output *out, const char *member, const char *name, const char *why);

#endif
