/* measure FILE: makes the smallest measure for a table, and tells the largest number in it; or that there is none. */
#include <stdio.h>
#include "checker.h"

int main(int words, char **word)
{
    static uint8_t text[CHECK_TEXT_BYTES + 1]; /* one byte more than a text may have: a longer one is turned down by it */
    static uint16_t slice[MEASURE_PLACES]; /* a table never has more states; what is not written stays 0 */
    uint32_t number;
    FILE *file = words == 2 ? fopen(word[1], "rb") : NULL;
    if (!file) {
        fprintf(stderr, "usage: measure FILE\n");
        return 64;
    }
    size_t length = fread(text, 1, sizeof text, file);
    if (ferror(file)) {
        perror(word[1]);
        return 65;
    }
    fclose(file);
    uint32_t result = measure_design(text, length, slice, MEASURE_PLACES, &number);
    if (result == MEASURE_TURNED_DOWN) {
        fprintf(stderr, "measure: turned down by %u\n", (unsigned)number);
        return 2;
    }
    size_t largest = 0;
    for (size_t state = 0; state < MEASURE_PLACES; state++)
        if (slice[state] > slice[largest]) largest = state;
    if (result == MEASURE_LOOP) printf("no measure: state %u is on a loop\n", (unsigned)number);
    else printf("at most %u, first in state %zu\n", slice[largest], largest);
    if (fflush(stdout) != 0) {
        perror("measure");
        return 65;
    }
    return (int)result;
}
