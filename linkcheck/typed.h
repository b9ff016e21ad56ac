/* A text as it is read: as it stands, or made of a file that was typed with any blanks and comments. What a text has in a line is told by
 * the line of the file that it comes from. */
#ifndef TYPED_H
#define TYPED_H

#include "table.h"

enum {
    MOST_TYPED = 1 << 20, /* bytes of a typed file, blanks and comments among them */
    MOST_SLIPS = 20,      /* those of a file that are kept */
    MOST_TYPED_LINES = MAX_TEXT / (COLUMNS + 1) + 1,
    SLIP_BYTES = 24,
};

/* Something else than a number in a typed file. */
struct slip {
    size_t line, column; /* in the file, counted from 1, a byte being a column; line 0 if the file is too long */
    bool comment;        /* it begins a comment, where there are to be none */
    uint8_t word[SLIP_BYTES];
    size_t length; /* of the word, which may be longer than what is kept of it */
};

/* A text up to the first byte that makes it too long. */
struct text {
    uint8_t bytes[MAX_TEXT + 1];
    size_t len;
    bool typed; /* it is made of a typed file, of which the rest tells */
    size_t lines, fields;
    uint32_t line[MOST_TYPED_LINES];           /* the line of the file that a line comes from, by its number less 1 */
    uint32_t column[MAX_TEXT / COLUMNS + 1];   /* the column in it that a field begins in */
    size_t slips;                              /* if there are any, there is no text */
    struct slip slip[MOST_SLIPS];
};

/* Whether the files that are read are typed ones. */
extern bool typed_files;

/* Reads the file, or standard input for "-". Gives 0, or the errno of what went wrong. */
int text_read(struct text *t, const char *path);

/* Reads a typed one, with comments or without. */
enum comments { NO_COMMENTS, COMMENTS };
int text_read_typed(struct text *t, const char *path, enum comments comments);

/* The file's line that a line of the text, or of a table's text, comes from; both are counted from 1. */
size_t text_line(const struct text *t, size_t line);
size_t file_line(const struct table *t, size_t line);

#endif
