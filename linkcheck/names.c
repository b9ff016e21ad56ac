/* Names as they may be printed. */
#include "names.h"

/* How many bytes a character has by the first of them; 0 if it can't be the first. */
static size_t length_by(unsigned char first) {
    if (first < 0x80) return 1;
    if (first < 0xC0) return 0;
    return first < 0xE0 ? 2 : first < 0xF0 ? 3 : first < 0xF8 ? 4 : 0;
}

struct character character_at(const char *s) {
    static const uint32_t least[] = {0, 0, 0x80, 0x800, 0x10000}; /* a character is written with as few bytes as it needs */
    static const struct character none;
    const unsigned char first = (unsigned char)*s;
    struct character c = {.length = length_by(first)};
    c.number = c.length <= 1 ? first : first & (0x7Fu >> c.length);
    for (size_t i = 1; i < c.length; i++) {
        unsigned char next = (unsigned char)s[i];
        if ((next & 0xC0) != 0x80) return none;
        c.number = c.number << 6 | (next & 0x3F);
    }
    const bool surrogate = c.number >= 0xD800 && c.number <= 0xDFFF;
    return c.number < least[c.length] || c.number > 0x10FFFF || surrogate ? none : c;
}

bool is_control(uint32_t character) {
    return character < 0x20 || (character >= 0x7F && character <= 0x9F);
}

void put_name(struct output *out, const char *name) {
    while (*name) {
        const struct character c = character_at(name);
        if (c.length == 0 || is_control(c.number)) put(out, "?");
        else put_bytes(out, name, c.length);
        name += c.length ? c.length : 1;
    }
}
