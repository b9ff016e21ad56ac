/* Typed fields as six-column text. */
#define _POSIX_C_SOURCE 200809L
#include "../include/checker.h"
#include "faults.h"
#include "names.h"
#include "show.h"

#include <string.h>

/* A message, a line for each place in the file. */
static int say_slips(const char *name, const struct text *t) {
    const struct fault f = fault_of(t, 0);
    struct output *m = message();
    put_name(m, name);
    put(m, ": ");
    print_turned_down(m, &f);
    print_places(m, &f);
    return message_sent(m, CHECK_TURNED_DOWN);
}

static int say_too_long(const char *name) {
    return complain(CHECK_TURNED_DOWN, name, "the columns are more than the 28672 bytes of a table");
}

/* The text is kept until all of it is made, so that a fault leaves no half table behind. */
int write_columns(struct output *out, const char *name) {
    static struct text text;
    const int error = text_read_typed(&text, name, typed_files ? COMMENTS : NO_COMMENTS);
    if (error) return complain(STATUS_UNREAD, name, strerror(error));
    if (text.slips) return say_slips(name, &text);
    if (text.len > MAX_TEXT) return say_too_long(name);
    put_bytes(out, text.bytes, text.len);
    return 0;
}
