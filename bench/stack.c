/* stack TEXT..: the deepest stack that each function of the libraries uses over the texts, in bytes, on a stack of its own that is painted
 * before. */
#define _XOPEN_SOURCE 700
#include <stdint.h>
#include <stdio.h>
#include <stdlib.h>
#include <string.h>
#include <ucontext.h>
#include "../include/checker.h"

enum { STACK = 1 << 20, PAINT = 0xA5 };

static ucontext_t here, there;
static uint8_t stack[STACK], text[1 << 16], report[CHECK_REPORT_BYTES], result[MARK_RESULT_BYTES];
static uint16_t slice[MEASURE_PLACES];
static struct check_desk desk;
static size_t len;
static uint32_t number;

static void nothing(void) {}

static void check(void) { check_design(text, len, report, sizeof report); }

static void mark(void) { mark_design(text, len, result, sizeof result, &number); }

static void unmark(void) { unmark_design(text, len, result, sizeof result, &number); }

static void measure(void) { measure_design(text, len, slice, MEASURE_PLACES, &number); }

static void hold(void) { hold_design(text, len, desk.held.fields, desk.held.starts, desk.held.counts); }

static void name_line(void) { fault_line(text, len, 1); }

static void compare(void) { same_duty(text, len, text, len); }

static void load(void)
{
    desk_new(&desk);
    desk_load(&desk, text, len);
}

static void advance(void)
{
    size_t states;
    load();
    desk_advance(&desk, MEASURE_PLACES, &states);
}

static const struct {
    const char *name;
    void (*call)(void);
} functions[] = {{"check_design", check}, {"mark_design", mark}, {"unmark_design", unmark}, {"measure_design", measure},
               {"hold_design", hold}, {"fault_line", name_line}, {"same_duty", compare}, {"desk_load", load}, {"desk_advance", advance}};

enum { FUNCTIONS = sizeof functions / sizeof *functions };

/* The bytes of the stack that a call writes, from its top down to the lowest that changed. */
static size_t depth_of(void (*call)(void))
{
    memset(stack, PAINT, STACK);
    getcontext(&there);
    there.uc_stack.ss_sp = stack;
    there.uc_stack.ss_size = STACK;
    there.uc_link = &here;
    makecontext(&there, call, 0);
    swapcontext(&here, &there);
    size_t low = 0;
    while (low < STACK && stack[low] == PAINT) low++;
    return STACK - low;
}

int main(int n, char **names)
{
    size_t least = depth_of(nothing), most[FUNCTIONS] = {0};
    const char *deepest[FUNCTIONS] = {"", "", "", ""};
    for (int i = 1; i < n; i++) {
        FILE *f = fopen(names[i], "rb");
        if (!f) { perror(names[i]); return 1; }
        len = fread(text, 1, sizeof text, f);
        fclose(f);
        for (int k = 0; k < FUNCTIONS; k++) {
            size_t depth = depth_of(functions[k].call) - least;
            if (depth > most[k]) { most[k] = depth; deepest[k] = names[i]; }
        }
    }
    for (int k = 0; k < FUNCTIONS; k++)
        printf("deepest stack of %s over %d texts: %zu bytes (%s)\n", functions[k].name, n - 1, most[k], deepest[k]);
}
