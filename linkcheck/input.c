/* What is read, with its errors told. */
#define _POSIX_C_SOURCE 200809L
#include "input.h"

#include <errno.h>
#include <fcntl.h>
#include <string.h>
#include <unistd.h>

struct input standard_input = {.file = STDIN_FILENO};

struct input input_open(const char *name) {
    if (strcmp(name, "-") == 0) return standard_input;
    int file = open(name, O_RDONLY | O_CLOEXEC | O_NOCTTY);
    return (struct input){.file = file, .error = file < 0 ? errno : 0};
}

size_t input_read(struct input *in, void *bytes, size_t room) {
    size_t length = 0;
    while (length < room && !in->ended && !in->error) {
        ssize_t got = read(in->file, (char *)bytes + length, room - length);
        if (got > 0) length += (size_t)got;
        else if (got == 0) in->ended = true;
        else if (errno != EINTR) in->error = errno;
    }
    return length;
}

/* Closing what was only read loses nothing, so it can't go wrong. */
void input_close(struct input *in) {
    if (in->file > STDIN_FILENO) close(in->file);
}
