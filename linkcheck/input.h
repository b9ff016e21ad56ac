/* What is read. The end of an input is there only when reading tells it; an error is never taken for it. */
#ifndef INPUT_H
#define INPUT_H

#include <stdbool.h>
#include <stddef.h>

struct input {
    int file;
    bool ended; /* the end was told */
    int error;  /* 0, or the errno of what went wrong */
};

extern struct input standard_input;

/* Opens the file, or takes standard input for "-". */
struct input input_open(const char *name);

/* Reads until the room is full, the input ends, or something goes wrong. Gives the number of bytes. */
size_t input_read(struct input *in, void *bytes, size_t room);

void input_close(struct input *in);

#endif
