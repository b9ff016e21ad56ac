/* marks FILE: gives a table a line of kind 8, checks it with and without, and takes the line away again. */
#include <stdio.h>
#include <string.h>
#include "checker.h"

int main(int words, char **word)
{
    static uint8_t text[CHECK_TEXT_BYTES + 1]; /* one byte more than a text may have: a longer one is turned down by it */
    static uint8_t marked[MARK_RESULT_BYTES], back[MARK_RESULT_BYTES]; /* a result is never longer */
    uint8_t report[CHECK_REPORT_BYTES], with_marks[CHECK_REPORT_BYTES];
    uint32_t number;
    FILE *file = words == 2 ? fopen(word[1], "rb") : NULL;
    if (!file) {
        fprintf(stderr, "usage: marks FILE\n");
        return 64;
    }
    size_t length = fread(text, 1, sizeof text, file);
    if (ferror(file)) {
        perror(word[1]);
        return 65;
    }
    fclose(file);
    size_t marked_length = mark_design(text, length, marked, sizeof marked, &number);
    if (number != MARK_DONE) {
        fprintf(stderr, "marks: turned down by %u\n", (unsigned)number);
        return 2;
    }
    check_design(text, length, report, sizeof report);
    check_design(marked, marked_length, with_marks, sizeof with_marks);
    printf("%s; ", memcmp(report, with_marks, sizeof report) == 0 ? "the same report" : "another report");
    size_t back_length = unmark_design(marked, marked_length, back, sizeof back, &number);
    if (number == MARK_OTHER_FORMULA) printf("marks other than 10 stay\n"); /* the table had the line, and marked is its copy */
    else if (number != MARK_DONE) {
        fprintf(stderr, "marks: turned down by %u\n", (unsigned)number);
        return 2;
    } else printf("%s\n", back_length == length && memcmp(back, text, length) == 0 ? "the same text again" : "the text without its line");
    if (fflush(stdout) != 0) {
        perror("marks");
        return 65;
    }
    return 0;
}
