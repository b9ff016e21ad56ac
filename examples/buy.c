/* buy FILE: whether the board in a table may be bought. It is the least that a C program does to call the checker; linkcheck/verdict.c is
 * the one to copy for a program that goes on after a fault. The exit status is the verdict. */
#include <stdio.h>
#include "checker.h"

static const char *advice(uint32_t verdict)
{
    if (verdict == CHECK_ACCEPTED) return "buy";
    return CHECK_IS_ACCEPTED(verdict) ? "buy, but not under a choice" : "do not buy";
}

int main(int words, char **word)
{
    static uint8_t text[CHECK_TEXT_BYTES + 1]; /* one byte more than a text may have: a longer one is turned down by it */
    uint8_t report[CHECK_REPORT_BYTES];
    FILE *file = words == 2 ? fopen(word[1], "rb") : NULL;
    if (!file) {
        fprintf(stderr, "usage: buy FILE\n");
        return 64;
    }
    size_t length = fread(text, 1, sizeof text, file);
    if (ferror(file)) {
        perror(word[1]);
        return 65;
    }
    fclose(file);
    uint32_t verdict = check_design(text, length, report, sizeof report);
    printf("%s: ", advice(verdict));
    fwrite(report, 1, sizeof report, stdout);
    if (fflush(stdout) != 0) {
        perror("buy");
        return 65;
    }
    return (int)verdict;
}
