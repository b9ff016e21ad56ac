/* Several processes that check the files of a list. Each takes the next file when it is free, so that a table that takes long holds back no
 * other; what they answer is to be had in the order of the list. */
#ifndef TEAM_H
#define TEAM_H

#include "answer.h"

struct team;

/* Starts up to so many processes, which can be told how far they have come if `telling`. Gives NULL if none can be started. */
struct team *team_start(const struct paths *paths, enum format format, size_t processes, bool telling);

/* Waits for the answer to a file, for good or for a second at most. Gives whether it is there. A file whose process failed, as it was
 * killed or for want of memory, counts as not read. */
bool team_answer(struct team *t, size_t file, struct answer *a, bool a_second);

/* How many files are answered, in their turn or before. */
size_t team_done(const struct team *t);

/* How far the check of a file has come; no states if that isn't known. */
struct team_place {
    size_t examined, states;
};
struct team_place team_place(const struct team *t, size_t file);

/* Waits until the processes have ended. */
void team_end(struct team *t);

#endif
