/* What there is to say of one file, and how one process tells it to another. */
#define _POSIX_C_SOURCE 200809L
#include "answer.h"
#include "duty.h"
#include "explain.h"
#include "input.h"
#include "json.h"
#include "watch.h"

#include <stdlib.h>
#include <string.h>

/* ---- one file ---- */

enum result result_of(const struct verdict *v) {
    static const enum result results[] = {
        [CHECK_ACCEPTED] = ACCEPTED, [CHECK_ACCEPTED_AFTER_INTERNAL] = AFTER_INTERNAL, [CHECK_FAILED] = FAILED,
        [CHECK_TURNED_DOWN] = TURNED_DOWN,
    };
    return v->other_duty ? OTHER_DUTY : v->unfinished ? NOT_FINISHED : results[v->outcome];
}

const char *result_word(enum result result) {
    static const char *const words[RESULTS] = {
        [ACCEPTED] = "accepted", [AFTER_INTERNAL] = "accepted after a first internal step", [FAILED] = "failed",
        [OTHER_DUTY] = "other duty", [TURNED_DOWN] = "turned down", [NOT_FINISHED] = "not finished", [UNREAD] = "not read",
    };
    return words[result];
}

/* AFTER_INTERNAL is verdict 3, but status 3 says that something could not be read. */
int exit_status(enum result gravest) {
    static const int statuses[RESULTS] = {
        [ACCEPTED] = 0, [AFTER_INTERNAL] = 4, [FAILED] = 1, [OTHER_DUTY] = 5, [TURNED_DOWN] = 2, [NOT_FINISHED] = 6,
        [UNREAD] = STATUS_UNREAD,
    };
    return statuses[gravest];
}

static void print_unfinished(struct output *out, const struct verdict *v) {
    put(out, "not finished: ");
    put_count(out, v->examined);
    put(out, " of ");
    put_count(out, v->states);
    print(out, " states in %.15g s", watch.seconds);
}

void print_result(struct output *out, const struct verdict *v, enum run_length length) {
    if (v->other_duty && v->whole) print_other_duty(out, &v->table);
    else if (v->other_duty) put(out, result_word(OTHER_DUTY));
    else if (v->unfinished) print_unfinished(out, v);
    else (length == WHOLE_RUN ? print_whole_verdict : print_verdict)(out, v);
}

/* Lines as long as a report that are none: 9 is no verdict, and what follows is no number. */
static const char other_duty[] = "     9 other duty             ", not_finished[] = "     9 not finished           ";

static void put_report(struct output *out, const struct verdict *v) {
    if (v->other_duty) put(out, other_duty);
    else if (v->unfinished) put(out, not_finished);
    else put_bytes(out, v->report, sizeof v->report - 1);
}

static void put_object(struct output *out, const char *name, const struct verdict *v) {
    if (!v->other_duty && !v->unfinished) {
        json_verdict(out, name, v);
        return;
    }
    json_begin(out, name, "verdict", result_word(result_of(v)));
    if (v->other_duty && v->whole) json_other_duty(out, &v->table);
    if (v->unfinished) print(out, ",\"states\":%zu,\"examined\":%zu", v->states, v->examined);
    put(out, "}");
}

static void put_verdict(struct output *out, const char *name, const struct verdict *v, enum format format) {
    switch (format) {
    case REPORT: put_report(out, v); break;
    case JSON: put_object(out, name, v); break;
    case WORDS: print_result(out, v, SHORT_RUN);
    }
}

/* The answer with these words, which have all been added, or there was no memory for them. */
static struct answer answer_of(enum result result, struct output words) {
    const size_t length = words.length;
    put_bytes(&words, "", 1);
    if (words.error) no_memory();
    return (struct answer){result, words.bytes, length};
}

struct answer unread(const char *why) {
    struct output words = {.file = KEPT};
    put(&words, why);
    return answer_of(UNREAD, words);
}

struct answer answer_to(const struct path *path, enum format format) {
    static struct text own;
    static struct verdict verdict;
    struct output words = {.file = KEPT};
    if (path->wrong) return unread(path->wrong);
    int error = path->text ? 0 : text_read(&own, path->name);
    if (error) return unread(strerror(error));
    if (!verdict_of(&verdict, path->text ? path->text : &own)) return unread(other_rules);
    put_verdict(&words, path->name, &verdict, format);
    return answer_of(result_of(&verdict), words);
}

/* ---- from one process to another ---- */

/* What comes before the words of an answer. */
struct header {
    uint64_t mark, number, result, length; /* the number is that of the file in the list; the mark has it too */
};

enum { HEADER_MARK = 0x6B6E696C };

/* More words than any answer has: a byte of the name becomes six at most, and what is said of a table is far shorter than this, though it
 * may have a term of 255 fields twice for each of many lines, and in JSON a run through every state. */
static size_t too_long(const char *name) {
    enum { ANYTHING = 1 << 20, STEP = 512 };
    return 6 * strlen(name) + ANYTHING + (size_t)STEP * MAX_STATES;
}

static bool receive(int from, void *bytes, size_t length) {
    struct input in = {.file = from};
    return input_read(&in, bytes, length) == length;
}

/* The words of an answer have no control character, so that nothing else is taken for them. */
static bool is_one_line(const struct answer *a) {
    for (size_t i = 0; i < a->length; i++)
        if ((unsigned char)a->words[i] < ' ') return false;
    return a->length > 0;
}

bool send_answer(int to, size_t number, const struct answer *a) {
    const struct header h = {HEADER_MARK + number, number, a->result, a->length};
    return write_all(to, &h, sizeof h) == 0 && write_all(to, a->words, a->length) == 0;
}

bool take_answer(int from, const struct paths *paths, size_t *number, struct answer *a) {
    struct header h;
    if (!receive(from, &h, sizeof h)) return false;
    if (h.mark != HEADER_MARK + h.number || h.number >= paths->count || h.result >= RESULTS) return false;
    if (h.length >= too_long(paths->path[h.number].name)) return false;
    *number = h.number;
    *a = (struct answer){(enum result)h.result, calloc(h.length + 1, 1), h.length};
    if (!a->words) no_memory();
    if (receive(from, a->words, a->length) && is_one_line(a)) return true;
    free(a->words);
    return false;
}
