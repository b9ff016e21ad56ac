/* slices TABLE ...: whether measure_design writes the places of the states and no other, in a slice that is longer than is needed, one that is
 * just long enough, and one that is too short. Ends with 1 at the first table where it doesn't. */
#include "../../include/checker.h"

#include <stdbool.h>
#include <stdio.h>
#include <stdlib.h>
#include <string.h>

enum { MAX_TEXT = 28672, BEFORE = 65535, COLUMNS = 6 };

static char text[MAX_TEXT + 1];
static size_t len;
static uint16_t whole[MEASURE_PLACES + 1], slice[MEASURE_PLACES + 1]; /* one place more than is ever lent */

struct answer {
    uint32_t result, number;
};

static struct answer measure(uint16_t *places, size_t count) {
    struct answer a;
    for (size_t i = 0; i <= MEASURE_PLACES; i++) places[i] = BEFORE;
    a.result = measure_design((const uint8_t *)text, len, places, count, &a.number);
    return a;
}

/* The product of the sizes of a table. */
static size_t states(void) {
    size_t count = 1;
    for (const char *line = text; strncmp(line, "     1", COLUMNS) == 0; line = strchr(line, '\n') + 1)
        count *= strtoul(line + COLUMNS, NULL, 10);
    return count;
}

static bool kept_from(const uint16_t *places, size_t from) {
    while (from <= MEASURE_PLACES && places[from] == BEFORE) from++;
    return from > MEASURE_PLACES;
}

static bool same(struct answer a, struct answer b) {
    return a.result == b.result && a.number == b.number;
}

static bool is_right(void) {
    const struct answer a = measure(whole, MEASURE_PLACES);
    const bool turned_down = a.result == MEASURE_TURNED_DOWN;
    struct answer none;
    if (turned_down && a.number < MEASURE_SHORT_SLICE) {
        none.result = measure_design((const uint8_t *)text, len, NULL, 0, &none.number);
        return kept_from(whole, 0) && same(a, none);
    }
    const size_t count = states();
    if (!kept_from(whole, turned_down ? 0 : count)) return false;
    if (!same(measure(slice, count), a) || memcmp(slice, whole, sizeof whole) != 0) return false;
    return same(measure(slice, count - 1), (struct answer){MEASURE_TURNED_DOWN, MEASURE_SHORT_SLICE}) && kept_from(slice, 0);
}

int main(int count, char **name) {
    for (int i = 1; i < count; i++) {
        FILE *in = fopen(name[i], "rb");
        if (!in) {
            perror(name[i]);
            return 1;
        }
        len = fread(text, 1, sizeof text, in);
        fclose(in);
        if (is_right()) continue;
        fprintf(stderr, "slices: %s\n", name[i]);
        return 1;
    }
    return 0;
}
