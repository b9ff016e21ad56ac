/* How far a run has come. */
#define _POSIX_C_SOURCE 200809L
#include "progress.h"
#include "names.h"
#include "output.h"
#include "watch.h"

#include <string.h>
#include <unistd.h>

struct progress progress_start(size_t all) {
    return (struct progress){.wanted = isatty(STDERR_FILENO), .in_the_way = isatty(STDOUT_FILENO), .last = seconds_now(), .all = all};
}

void progress_clear(struct progress *p) {
    if (p->shown) write_all(STDERR_FILENO, "\r\033[K", 4);
    p->shown = false;
}

static bool is_due(struct progress *p) {
    const double now = seconds_now();
    if (!p->wanted || now - p->last < 1) return false;
    p->last = now;
    return true;
}

/* Begins a line, after what is written so far. */
static struct output begun(struct progress *p, char *bytes, size_t room) {
    struct output line = {.file = STDERR_FILENO, .bytes = bytes, .room = room};
    output_flush(&standard_output);
    put(&line, "\r\033[Klinkcheck: ");
    if (p->all > 1) print(&line, "%zu of %zu tables", p->done, p->all);
    p->shown = true;
    return line;
}

void progress_tell(struct progress *p) {
    char bytes[128];
    if (p->done == p->all || !is_due(p)) return;
    struct output line = begun(p, bytes, sizeof bytes);
    output_flush(&line);
}

/* The end of a long name, so that the line is none too long for a terminal. */
static const char *short_name(const char *name) {
    enum { LONGEST_NAME = 24 };
    while (strlen(name) > LONGEST_NAME) {
        const size_t length = character_at(name).length;
        name += length ? length : 1;
    }
    return name;
}

void progress_tell_table(struct progress *p, const char *name, size_t examined, size_t states) {
    char bytes[256];
    if (!is_due(p)) return;
    struct output line = begun(p, bytes, sizeof bytes);
    if (p->all > 1) put(&line, ", ");
    put_name(&line, short_name(name));
    put(&line, ": ");
    put_count(&line, examined);
    put(&line, " of ");
    put_count(&line, states);
    put(&line, " states");
    output_flush(&line);
}
