/* Checking a list of files: their answers in order, and what comes of all of them. */
#define _POSIX_C_SOURCE 200809L
#include "run.h"
#include "json.h"
#include "junit.h"
#include "names.h"
#include "progress.h"
#include "team.h"
#include "watch.h"

#include <stdlib.h>
#include <string.h>

struct tally {
    const struct request *asked;
    size_t with[RESULTS], given;
    struct junit junit;
    struct progress progress;
    const char *name; /* of the table that is checked */
};

/* ---- a line ---- */

/* A file that could not be read has a line where others have their report, as long as one. Its first field is no verdict, and what follows
 * is no number, so that nothing takes it for a report. */
static const char not_read[] = "     9 not read               \n";

static void give_unread(enum format format, const char *name, const char *why) {
    output_flush(&standard_output);
    complain(STATUS_UNREAD, name, why);
    if (format == REPORT) put(&standard_output, not_read);
    if (format == JSON) {
        json_unreadable(&standard_output, "verdict", name, why);
        put(&standard_output, "\n");
    }
}

/* The words of a verdict, the first of them coloured. */
static void put_coloured(const struct answer *a) {
    static const char *const colours[RESULTS] = {
        [ACCEPTED] = "\033[32m", [AFTER_INTERNAL] = "\033[33m", [FAILED] = "\033[31m", [OTHER_DUTY] = "\033[31m",
        [TURNED_DOWN] = "\033[31m", [NOT_FINISHED] = "\033[35m", [UNREAD] = "",
    };
    const char *word = result_word(a->result);
    const size_t length = strncmp(a->words, word, strlen(word)) == 0 ? strlen(word) : 0;
    put(&standard_output, colours[a->result]);
    put_bytes(&standard_output, a->words, length);
    put(&standard_output, "\033[0m");
    put_bytes(&standard_output, a->words + length, a->length - length);
}

static void give_line(const struct request *asked, const char *name, const struct answer *a) {
    if (asked->format == WORDS) {
        put_name(&standard_output, name);
        put(&standard_output, "  ");
    }
    if (asked->coloured) put_coloured(a);
    else put_bytes(&standard_output, a->words, a->length);
    put(&standard_output, "\n");
}

static void give(struct tally *t, const char *name, struct answer *a) {
    const bool left_out = t->asked->quiet && (a->result == ACCEPTED || a->result == AFTER_INTERNAL);
    if (t->progress.in_the_way || a->result == UNREAD) progress_clear(&t->progress);
    if (t->asked->junit) junit_add(&t->junit, name, a);
    if (a->result == UNREAD) give_unread(t->asked->format, name, a->words);
    else if (!left_out) give_line(t->asked, name, a);
    if (t->progress.in_the_way) output_flush(&standard_output);
    t->with[a->result]++;
    if (t->progress.done < ++t->given) t->progress.done = t->given;
    free(a->words);
    progress_tell(&t->progress);
}

/* ---- the end ---- */

static void summary(const struct tally *t) {
    struct output *out = &standard_output;
    const size_t *with = t->with;
    size_t tables = 0;
    for (enum result result = ACCEPTED; result < UNREAD; result++) tables += with[result];
    print(out, "%zu table%s: %zu accepted, ", tables, tables == 1 ? "" : "s", with[ACCEPTED]);
    if (with[AFTER_INTERNAL]) print(out, "%zu accepted after a first internal step, ", with[AFTER_INTERNAL]);
    print(out, "%zu failed, %zu turned down", with[FAILED], with[TURNED_DOWN]);
    if (with[OTHER_DUTY]) print(out, ", %zu with another duty", with[OTHER_DUTY]);
    if (with[NOT_FINISHED]) print(out, ", %zu not finished", with[NOT_FINISHED]);
    if (with[UNREAD]) print(out, "; %zu not read", with[UNREAD]);
    put(out, "\n");
}

static enum result gravest(const struct tally *t) {
    enum result result = UNREAD;
    while (result > ACCEPTED && t->with[result] == 0) result--;
    return result;
}

/* ---- the files ---- */

static struct tally *telling; /* the run whose progress is told */

static void tell_here(size_t examined, size_t states) {
    progress_tell_table(&telling->progress, telling->name, examined, states);
}

static void run_alone(struct tally *t, const struct paths *paths) {
    telling = t;
    if (t->progress.wanted) watch.tell = tell_here;
    for (size_t i = 0; i < paths->count; i++) {
        t->name = paths->path[i].name;
        struct answer a = answer_to(&paths->path[i], t->asked->format);
        give(t, t->name, &a);
    }
}

static void run_team(struct tally *t, struct team *team, const struct paths *paths) {
    for (size_t i = 0; i < paths->count; i++) {
        struct answer a;
        const char *name = paths->path[i].name;
        while (!team_answer(team, i, &a, t->progress.wanted)) {
            const struct team_place at = team_place(team, i);
            t->progress.done = team_done(team);
            if (at.states) progress_tell_table(&t->progress, name, at.examined, at.states);
            else progress_tell(&t->progress);
        }
        give(t, name, &a);
    }
    team_end(team);
}

int run(const struct paths *paths, const struct request *asked) {
    struct tally t = {.asked = asked, .progress = progress_start(paths->count)};
    const size_t processes = asked->processes < paths->count ? asked->processes : paths->count;
    struct team *team = processes > 1 ? team_start(paths, asked->format, processes, t.progress.wanted) : NULL;
    if (team) run_team(&t, team, paths);
    else run_alone(&t, paths);
    progress_clear(&t.progress);
    if (asked->format == WORDS) summary(&t);
    const int status = asked->junit ? junit_write(&t.junit, asked->junit) : 0;
    return status ? status : exit_status(gravest(&t));
}
