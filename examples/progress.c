/* progress FILE: checks a table by advances on a desk, and shows how far it has come. An interrupt (Ctrl-C) ends it between two advances,
 * without a verdict. The exit status is the verdict; 64 without a file that can be opened, 65 for another error, 130 if it was interrupted. */
#include <signal.h>
#include <stdio.h>
#include "checker.h"

static volatile sig_atomic_t interrupted;

static void interrupt(int signal_number)
{
    (void)signal_number;
    interrupted = 1;
}

/* Advances to the end, or until it is interrupted. */
static uint32_t walk(struct check_desk *desk)
{
    size_t number;
    uint32_t answer = DESK_OPEN;
    while (answer == DESK_OPEN && !interrupted) {
        answer = desk_advance(desk, 512, &number);
        fprintf(stderr, "\r%zu states examined", desk->next);
    }
    fputc('\n', stderr);
    return answer;
}

int main(int words, char **word)
{
    static uint8_t text[CHECK_TEXT_BYTES + 1]; /* one byte more than a text may have: a longer one is turned down by it */
    static struct check_desk desk;
    uint16_t numbers[5];
    FILE *file = words == 2 ? fopen(word[1], "rb") : NULL;
    if (!file) {
        fprintf(stderr, "usage: progress FILE\n");
        return 64;
    }
    size_t length = fread(text, 1, sizeof text, file);
    if (ferror(file)) {
        perror(word[1]);
        return 65;
    }
    fclose(file);
    signal(SIGINT, interrupt);
    desk_new(&desk);
    uint32_t turned_down = desk_load(&desk, text, length);
    if (turned_down) {
        printf("turned down by %u\n", (unsigned)turned_down);
        return CHECK_TURNED_DOWN;
    }
    uint32_t answer = walk(&desk);
    if (answer == DESK_OPEN) {
        puts("interrupted");
        return 130;
    }
    desk_verdict(&desk, numbers);
    printf("verdict %u, criterion %u, state %u, row %u, sum value %u\n", numbers[0], numbers[1], numbers[2], numbers[3], numbers[4]);
    return fflush(stdout) == 0 ? (int)answer : 65;
}
