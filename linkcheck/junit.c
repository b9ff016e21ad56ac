/* The answers as JUnit XML. A table that fails, has another duty or is turned down is a failure, one that isn't finished or could not be
 * read is an error. */
#define _POSIX_C_SOURCE 200809L
#include "junit.h"
#include "names.h"

#include <errno.h>
#include <fcntl.h>
#include <stdio.h>
#include <stdlib.h>
#include <string.h>
#include <sys/stat.h>
#include <unistd.h>

/* ---- the suite ---- */

/* A text of an attribute. What XML has no character for becomes a question mark, as in names. */
static void put_escaped(struct output *out, const char *words) {
    while (*words) {
        const struct character c = character_at(words);
        const bool none = c.length == 0 || is_control(c.number) || c.number == 0xFFFE || c.number == 0xFFFF;
        if (none) put(out, "?");
        else if (c.number == '&') put(out, "&amp;");
        else if (c.number == '<') put(out, "&lt;");
        else if (c.number == '>') put(out, "&gt;");
        else if (c.number == '"') put(out, "&quot;");
        else put_bytes(out, words, c.length);
        words += c.length ? c.length : 1;
    }
}

static void put_problem(struct output *out, const char *element, const struct answer *a) {
    print(out, "><%s type=\"%s\" message=\"", element, result_word(a->result));
    put_escaped(out, a->words);
    put(out, "\"/></testcase>\n");
}

void junit_add(struct junit *j, const char *name, const struct answer *a) {
    if (j->tests++ == 0) j->cases.file = KEPT;
    put(&j->cases, "    <testcase classname=\"linkcheck\" name=\"");
    put_escaped(&j->cases, name);
    put(&j->cases, "\"");
    if (a->result == ACCEPTED) {
        put(&j->cases, "/>\n");
    } else if (a->result == AFTER_INTERNAL) {
        put(&j->cases, "><system-out>");
        put_escaped(&j->cases, a->words);
        put(&j->cases, "</system-out></testcase>\n");
    } else if (a->result == UNREAD || a->result == NOT_FINISHED) {
        j->errors++;
        put_problem(&j->cases, "error", a);
    } else {
        j->failures++;
        put_problem(&j->cases, "failure", a);
    }
}

/* ---- the file ---- */

/* Writes all of it to a descriptor, until it is kept by the disk. Gives 0 or an errno. */
static int put_suite(const struct junit *j, int file) {
    char bytes[1 << 12];
    struct output out = {.file = file, .bytes = bytes, .room = sizeof bytes, .error = j->cases.error};
    put(&out, "<?xml version=\"1.0\" encoding=\"UTF-8\"?>\n<testsuites>\n");
    print(&out, "  <testsuite name=\"linkcheck\" tests=\"%zu\" failures=\"%zu\" errors=\"%zu\">\n", j->tests, j->failures, j->errors);
    put_bytes(&out, j->cases.bytes, j->cases.length);
    put(&out, "  </testsuite>\n</testsuites>\n");
    output_flush(&out);
    if (!out.error && fsync(file) != 0 && errno != EINVAL) out.error = errno;
    return output_close(&out);
}

/* A name beside the file's, for the time until all is written. */
static char *name_beside(const char *file) {
    const size_t room = strlen(file) + 32;
    char *name = malloc(room);
    if (!name) no_memory();
    snprintf(name, room, "%s.%ld.part", file, (long)getpid());
    return name;
}

static int write_beside(const struct junit *j, const char *beside, const char *name) {
    const int file = open(beside, O_WRONLY | O_CREAT | O_EXCL | O_CLOEXEC | O_NOCTTY, 0666);
    if (file < 0) return errno;
    int error = put_suite(j, file);
    if (!error && rename(beside, name) != 0) error = errno;
    if (error) unlink(beside);
    return error;
}

/* What is there already is replaced if it is a file. */
static int may_be_written(const char *name) {
    struct stat there;
    if (stat(name, &there) != 0) return errno == ENOENT ? 0 : errno;
    return S_ISREG(there.st_mode) ? 0 : EEXIST;
}

int junit_write(struct junit *j, const char *name) {
    char *beside = name_beside(name);
    int error = may_be_written(name);
    if (!error) error = write_beside(j, beside, name);
    free(beside);
    free(j->cases.bytes);
    return error ? complain(STATUS_UNREAD, name, strerror(error)) : 0;
}
