/* What is written, with its errors told. */
#define _POSIX_C_SOURCE 200809L
#include "output.h"
#include "names.h"

#include <errno.h>
#include <stdarg.h>
#include <stdio.h>
#include <stdlib.h>
#include <string.h>
#include <unistd.h>

static char out_bytes[1 << 16], message_bytes[1 << 12];

struct output standard_output = {.file = STDOUT_FILENO, .bytes = out_bytes, .room = sizeof out_bytes};

/* ---- bytes ---- */

int write_all(int file, const void *bytes, size_t length) {
    for (const char *at = bytes; length > 0;) {
        ssize_t put = write(file, at, length);
        if (put < 0 && errno == EINTR) continue;
        if (put <= 0) return put < 0 ? errno : EIO;
        at += put;
        length -= (size_t)put;
    }
    return 0;
}

void output_flush(struct output *o) {
    if (!o->error) o->error = write_all(o->file, o->bytes, o->length);
    o->length = 0;
}

static void grow(struct output *o) {
    size_t room = o->room ? 2 * o->room : 256;
    char *bytes = realloc(o->bytes, room);
    if (!bytes) {
        o->error = ENOMEM;
        return;
    }
    o->bytes = bytes;
    o->room = room;
}

void put_bytes(struct output *o, const void *bytes, size_t length) {
    for (const char *at = bytes; length > 0 && !o->error;) {
        size_t part = o->room - o->length;
        if (part == 0) {
            if (o->file == KEPT) grow(o);
            else output_flush(o);
            continue;
        }
        if (part > length) part = length;
        memcpy(o->bytes + o->length, at, part);
        o->length += part;
        at += part;
        length -= part;
    }
}

void put(struct output *o, const char *words) {
    put_bytes(o, words, strlen(words));
}

void print(struct output *o, const char *format, ...) {
    char bytes[256];
    va_list arguments;
    va_start(arguments, format);
    int length = vsnprintf(bytes, sizeof bytes, format, arguments);
    va_end(arguments);
    if (length >= 0 && (size_t)length < sizeof bytes) put_bytes(o, bytes, (size_t)length);
    else if (!o->error) o->error = EOVERFLOW;
}

void put_count(struct output *o, size_t number) {
    if (number < 1000) {
        print(o, "%zu", number);
        return;
    }
    put_count(o, number / 1000);
    print(o, ",%03zu", number % 1000);
}

int output_close(struct output *o) {
    output_flush(o);
    if (close(o->file) != 0 && !o->error) o->error = errno;
    return o->error;
}

/* ---- messages ---- */

struct output *message(void) {
    static struct output m;
    m = (struct output){.file = STDERR_FILENO, .bytes = message_bytes, .room = sizeof message_bytes};
    put(&m, "linkcheck: ");
    return &m;
}

int message_sent(struct output *m, int status) {
    put(m, "\n");
    output_flush(m);
    return m->error ? STATUS_UNREAD : status;
}

int complain(int status, const char *name, const char *why) {
    struct output *m = message();
    put_name(m, name);
    put(m, ": ");
    put(m, why);
    return message_sent(m, status);
}

_Noreturn void give_up(const char *why) {
    output_flush(&standard_output);
    struct output *m = message();
    put(m, why);
    exit(message_sent(m, STATUS_UNREAD));
}

_Noreturn void no_memory(void) {
    give_up("no memory");
}
