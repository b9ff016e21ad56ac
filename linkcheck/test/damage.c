/* Writes damaged copies of tables: damage FOLDER COUNT SEED TABLE ... writes FOLDER/0, FOLDER/1, .., each a table with one to three damages:
 * a text cut, a byte changed, a field changed, a line left out, a line doubled. The same seed gives the same texts. */
#include <stdint.h>
#include <stdio.h>
#include <stdlib.h>
#include <string.h>

enum { ROOM = 40000, COLUMNS = 6 };

static char text[2 * ROOM];
static size_t len;
static uint64_t seed;

static size_t any(size_t below) {
    seed ^= seed << 13;
    seed ^= seed >> 7;
    seed ^= seed << 17;
    return below ? (size_t)((seed * 0x2545F4914F6CDD1DULL >> 32) % below) : 0;
}

static void read_table(const char *name) {
    FILE *in = fopen(name, "rb");
    if (!in) {
        perror(name);
        exit(1);
    }
    len = fread(text, 1, ROOM, in);
    fclose(in);
}

static void cut(void) { len = any(len + 1); }

static void change_byte(void) {
    if (len) text[any(len)] = any(2) ? (char)any(256) : " 0123456789\n"[any(12)];
}

/* The place of some line and its length with byte 10. */
static size_t some_line(size_t *length) {
    size_t start = any(len + 1);
    while (start > 0 && text[start - 1] != '\n') start--;
    const char *end = memchr(text + start, '\n', len - start);
    *length = end ? (size_t)(end - text) - start + 1 : len - start;
    return start;
}

/* Mostly to a mark, a parameter or a small size, which is what leaves a table. */
static void change_field(void) {
    size_t length, start = some_line(&length);
    if (length <= COLUMNS) return;
    char field[16];
    snprintf(field, sizeof field, "%6u", (unsigned)(any(8) ? any(18) : any(65536)));
    memcpy(text + start + any(length / COLUMNS) * COLUMNS, field, COLUMNS);
}

static void drop_line(void) {
    size_t length, start = some_line(&length);
    memmove(text + start, text + start + length, len - start - length);
    len -= length;
}

static void double_line(void) {
    size_t length, start = some_line(&length);
    if (len + length > sizeof text) return;
    memmove(text + start + length, text + start, len - start);
    len += length;
}

int main(int count, char **argument) {
    static void (*const damage[])(void) = {change_field, change_field, change_field, change_field, change_byte, cut, drop_line, double_line};
    if (count < 5) return 64;
    seed = strtoull(argument[3], NULL, 10) + 0x9E3779B97F4A7C15ULL;
    for (long i = 0, all = atol(argument[2]); i < all; i++) {
        char name[4096];
        read_table(argument[4 + any((size_t)count - 4)]);
        for (size_t n = any(2) ? 1 : 1 + any(3); n > 0; n--) damage[any(sizeof damage / sizeof *damage)]();
        snprintf(name, sizeof name, "%s/%ld", argument[1], i);
        FILE *out = fopen(name, "wb");
        if (!out || fwrite(text, 1, len, out) != len || fclose(out) != 0) {
            perror(name);
            return 1;
        }
    }
    return 0;
}
