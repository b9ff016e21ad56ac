/* Typed tables: lines of numbers with any blanks between them, comments and empty lines, as six-column text. */
#define _POSIX_C_SOURCE 200809L
#include "typed.h"
#include "input.h"

#include <stdio.h>
#include <string.h>

bool typed_files;

/* ---- what comes out ---- */

/* What no longer fits is left out: the text is too long then, whatever follows. */
static void add(struct text *t, const char *bytes, size_t len) {
    const size_t room = sizeof t->bytes - t->len;
    if (len > room) len = room;
    memcpy(t->bytes + t->len, bytes, len);
    t->len += len;
}

static void add_field(struct text *t, unsigned number, size_t column) {
    char field[24];
    if (t->len == sizeof t->bytes) return;
    snprintf(field, sizeof field, "%6u", number);
    t->column[t->fields++] = (uint32_t)column;
    add(t, field, COLUMNS);
}

static void add_slip(struct text *t, const struct slip *slip) {
    if (t->slips < MOST_SLIPS) t->slip[t->slips] = *slip;
    t->slips++;
}

/* ---- what goes in ---- */

/* Where the reading of a typed file is. */
struct typing {
    const uint8_t *at, *end, *line_start;
    size_t line;
    bool begun; /* a field of this line was added */
    enum comments comments;
};

static bool is_blank(uint8_t c) {
    return c == ' ' || c == '\t' || c == '\r' || c == '\v' || c == '\f';
}

/* How long the word is that begins here: up to a blank, a comment or the end of the line. */
static size_t word_length(const struct typing *y) {
    const uint8_t *at = y->at;
    while (at < y->end && *at != '\n' && *at != '#' && !is_blank(*at)) at++;
    return (size_t)(at - y->at);
}

/* The number that a word is; -1 if it is none of 0 to 65,535. */
static long word_number(const uint8_t *word, size_t length) {
    long number = 0;
    for (size_t i = 0; i < length; i++) {
        if (word[i] < '0' || word[i] > '9') return -1;
        number = 10 * number + (word[i] - '0');
        if (number > UINT16_MAX) return -1;
    }
    return number;
}

static size_t column_of(const struct typing *y) {
    return (size_t)(y->at - y->line_start) + 1;
}

static void note_slip(struct text *t, const struct typing *y, size_t length) {
    struct slip slip = {.line = y->line, .column = column_of(y), .comment = *y->at == '#', .length = length};
    memcpy(slip.word, y->at, length < SLIP_BYTES ? length : SLIP_BYTES);
    add_slip(t, &slip);
}

static void take_word(struct text *t, struct typing *y) {
    const size_t length = word_length(y);
    const long number = word_number(y->at, length);
    if (number < 0) {
        note_slip(t, y, length);
    } else {
        if (!y->begun && t->len < sizeof t->bytes) t->line[t->lines++] = (uint32_t)y->line;
        y->begun = true;
        add_field(t, (unsigned)number, column_of(y));
    }
    y->at += length;
}

/* Where comments are not allowed one is a slip, and what it says is none. */
static void pass_comment(struct text *t, struct typing *y) {
    const uint8_t *end = memchr(y->at, '\n', (size_t)(y->end - y->at));
    if (y->comments == NO_COMMENTS) note_slip(t, y, 1);
    y->at = end ? end : y->end;
}

static void end_line(struct text *t, struct typing *y) {
    if (y->begun) add(t, "\n", 1);
    y->begun = false;
    y->line++;
}

static void make(struct text *t, struct typing y) {
    while (y.at < y.end) {
        if (*y.at == '\n') {
            end_line(t, &y);
            y.line_start = ++y.at;
        } else if (is_blank(*y.at)) {
            y.at++;
        } else if (*y.at == '#') {
            pass_comment(t, &y);
        } else {
            take_word(t, &y);
        }
    }
    end_line(t, &y);
}

int text_read_typed(struct text *t, const char *path, enum comments comments) {
    static uint8_t file[MOST_TYPED + 1];
    struct input in = input_open(path);
    const size_t len = input_read(&in, file, sizeof file);
    input_close(&in);
    t->typed = true;
    t->len = t->lines = t->fields = t->slips = 0;
    if (len > MOST_TYPED) add_slip(t, &(struct slip){.line = 0});
    else make(t, (struct typing){.at = file, .end = file + len, .line_start = file, .line = 1, .comments = comments});
    return in.error;
}

/* A text of more than MAX_TEXT bytes is turned down whatever follows, so reading one byte more is enough for a file of any size. */
int text_read(struct text *t, const char *path) {
    if (typed_files) return text_read_typed(t, path, COMMENTS);
    struct input in = input_open(path);
    t->len = input_read(&in, t->bytes, sizeof t->bytes);
    input_close(&in);
    t->typed = false;
    t->lines = t->fields = t->slips = 0;
    return in.error;
}

/* ---- lines ---- */

size_t text_line(const struct text *t, size_t line) {
    return t->typed && line >= 1 && line <= t->lines ? t->line[line - 1] : line;
}

size_t file_line(const struct table *t, size_t line) {
    return text_line(t->text, line);
}
