/* What there is to say of one file, and how one process tells it to another. */
#ifndef ANSWER_H
#define ANSWER_H

#include "output.h"
#include "paths.h"

#include <stdbool.h>

enum format { WORDS, REPORT, JSON };

/* What comes of a file, the gravest last. */
enum result { ACCEPTED, AFTER_INTERNAL, FAILED, OTHER_DUTY, TURNED_DOWN, NOT_FINISHED, UNREAD, RESULTS };

/* That of a table by its verdict, the word that its line begins with, and the exit status if nothing graver came of any file. */
enum result result_of(const struct verdict *v);
const char *result_word(enum result result);
int exit_status(enum result gravest);

/* The verdict in words, without byte 10; with the whole run to a failing state if that is asked for. */
enum run_length { SHORT_RUN, WHOLE_RUN };
void print_result(struct output *out, const struct verdict *v, enum run_length length);

/* The line of a file, without byte 10, and in words without the file's name; or why it could not be read, if that is its result. */
struct answer {
    enum result result;
    char *words; /* on the heap, with a byte 0 at the end */
    size_t length;
};

/* Reads the file and checks it. */
struct answer answer_to(const struct path *path, enum format format);

/* The answer for a file that could not be read. */
struct answer unread(const char *why);

/* Sends the answer for the file with this number in the list. Gives whether it could. */
bool send_answer(int to, size_t number, const struct answer *a);

/* Takes the next answer, and the number of its file. Gives whether what came is one, as it is sent. */
bool take_answer(int from, const struct paths *paths, size_t *number, struct answer *a);

#endif
