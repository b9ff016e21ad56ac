/* Names as they may be printed. A file's name may have any bytes, and so may an argument. */
#ifndef NAMES_H
#define NAMES_H

#include "output.h"

#include <stdbool.h>
#include <stdint.h>

struct character {
    uint32_t number;
    size_t length; /* in bytes; 0 if there is no UTF-8 character */
};

/* The UTF-8 character at s, which is not the end of its string. */
struct character character_at(const char *s);

/* Control characters, which could end a line or change what a terminal shows: below 32, and 127 to 159. */
bool is_control(uint32_t character);

/* A name on one line: a control character becomes a question mark, and so does each byte that is not part of a UTF-8 character. */
void put_name(struct output *out, const char *name);

#endif
