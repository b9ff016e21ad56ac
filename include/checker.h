/* The price link checker for C. `linkcheck/build.sh` makes the libraries, in target/staticlib.
 *
 *   libchecker.a     check_design: the check, in one call
 *   liblent_desk.a   desk_new, desk_load, desk_advance, desk_verdict, desk_drop: the check, in as many calls as one likes
 *   libduty.a        same_duty: whether a text has the specification that is asked for
 *   libconversion.a  mark_design, unmark_design: a text with a line of kind 8, and without it
 *   libmeasuring.a   measure_design: the smallest measure
 *   liblooking.a     hold_design, look_.., fault_line: what a design says at a state, and where a text is at fault, to explain a verdict
 *
 * read_report and CHECK_IS_ACCEPTED are inline here, and need no library. */
#ifndef CHECKER_H
#define CHECKER_H

#include <stddef.h>
#include <stdint.h>

#ifdef __cplusplus
extern "C" {
#endif

/* The version, as in the file VERSION: the first number changes if a call that there was, or linkcheck, answers otherwise, the second if
 * calls or kinds of lines are added, the third if neither. */
#define CHECKER_VERSION "4.0.1"

/* What check_design returns. */
#define CHECK_ACCEPTED 0
#define CHECK_FAILED 1
#define CHECK_TURNED_DOWN 2
#define CHECK_ACCEPTED_AFTER_INTERNAL 3
#define CHECK_SHORT_BUFFER 9

/* Whether check_design returned one of the two for an accepted text, 0 or 3. */
static inline int CHECK_IS_ACCEPTED(uint32_t verdict)
{
    return verdict == CHECK_ACCEPTED || verdict == CHECK_ACCEPTED_AFTER_INTERNAL;
}

/* The longest text that is not turned down for its length, and the length of a report. */
#define CHECK_TEXT_BYTES 28672
#define CHECK_REPORT_BYTES 31

/* The numbers of a report. */
struct check_report {
    unsigned verdict, number, state, row, sum; /* number: the criterion, or that of the fault */
};

/* Takes the 31 bytes of a report apart. Returns 0, or -1 if they are no report. */
static inline int read_report(const uint8_t report[CHECK_REPORT_BYTES], struct check_report *numbers)
{
    unsigned number[5];
    for (int field = 0; field < 5; field++) {
        int column = 6 * field;
        number[field] = 0;
        while (column < 6 * field + 5 && report[column] == ' ') column++;
        if (report[column] == '0' && column < 6 * field + 5) return -1;
        for (; column < 6 * field + 6; column++) {
            if (report[column] < '0' || report[column] > '9') return -1;
            number[field] = 10 * number[field] + (unsigned)(report[column] - '0');
        }
    }
    if (report[30] != 10 || number[0] > CHECK_ACCEPTED_AFTER_INTERNAL) return -1;
    numbers->verdict = number[0];
    numbers->number = number[1];
    numbers->state = number[2];
    numbers->row = number[3];
    numbers->sum = number[4];
    return 0;
}

/*
 * Checks the design text of text_len bytes at text, and writes its report to the first 31 of the report_len bytes at report, if there are
 * so many. docs/DESIGN-TEXT.md says what a design text is, and what criteria, faults, states and rows are.
 *
 * Returns
 *   0  accepted as it is: every criterion holds, and in the initial state the board has no internal step to make
 *   1  failed: a criterion does not hold
 *   2  turned down: the text is no design text
 *   3  accepted after a first internal step: every criterion holds, but in the initial state the board may make an internal step, that is,
 *      an internal row is enabled there for some sum value, marked or not, wherever it leads
 *   9  report_len is under 31: nothing is written, and the text is not looked at
 *
 * With 0 and 3 the board's initial state and the specification's are branching bisimilar; with 0 they are rooted branching bisimilar too,
 * with 3 they are not. That matters where the board is set under a choice with other behaviour: its internal step may decide the choice
 * before anything is seen, and then the other behaviour is gone, which the specification would still have offered.
 *
 * Before version 3.0.0 both were 0: a test for 0 alone no longer means accepted. Where both will do, test with CHECK_IS_ACCEPTED, and where
 * the board is put under a choice, for CHECK_ACCEPTED.
 *
 * With 0, 1, 2 and 3 the report is written: five numbers, each in six columns, right-justified with blanks before it, and a byte 10.
 *
 *   columns   0, 3 accepted   1 failed                          2 turned down
 *    1 to  6  0 or 3          1                                 2
 *    7 to 12  0               the criterion, 1 to 10            the number of the lowest fault, 1 to 7
 *   13 to 18  0               the state                         0
 *   19 to 24  0               the row, counted from 1           0
 *   25 to 30  0               the sum value                     0
 *   31        byte 10
 *
 * For example "     1     8     9     3     0\n": criterion 8 fails in state 9, for row 3 and sum value 0. A state's number counts the values
 * of its parameters in mixed radix, the first most significant. The row is the implementation's; in criterion 7 it is the
 * specification's, and criteria 1, 2 and 10 have row 0. The bytes of the report area after the 31st keep their content. There is no byte 0
 * at the end.
 *
 * Any bytes may be in the text. It is only read, and nothing of it is kept. The two areas must not overlap. An area of length 0 may have
 * any address, NULL among them.
 *
 * The function has no state, allocates nothing, makes no system call and always returns; threads may call it at the same time, each with a
 * report area of its own. It uses less than 128 KiB of stack: 40,720 bytes at the deepest terms, measured on x86-64 by bench/run.sh.
 * How long it takes depends on the design, which has up to 65,536 states, 64 rows and 256 sum values for each row.
 */
uint32_t check_design(const uint8_t *text, size_t text_len, uint8_t *report, size_t report_len);

/* The number that mark_design and unmark_design give, beside 1 to 7 for a fault of the text. */
#define MARK_DONE 0
#define MARK_OTHER_FORMULA 15
#define MARK_TOO_LONG 16

/* The most bytes that a result of theirs has: 4,096 fields of six columns, and the byte 10 of 84 lines. */
#define MARK_RESULT_BYTES 24660

/*
 * Write a design text with a line of kind 8, or without one. mark_design writes the text of text_len bytes at text with such a line at its
 * end, which has the formula `10` for each internal row, that is, for each line of kind 3 with action 0: all internal steps are marked, as
 * they are without the line. unmark_design writes the text without the line. A text that is of the wanted sort already is copied as it is,
 * by mark_design whatever its formulas. The result comes to the first of the buffer_len bytes at buffer.
 *
 * Return the length of the result, which is never 0, or 0 if the call is turned down. *number is written in any case:
 *   0       done: the result is written
 *   1 to 7  turned down: the text is no design text; this is the number of its lowest fault
 *   15      turned down by unmark_design: a formula of the line of kind 8 is other than `10`, by its fields: `14 11` is other
 *   16      turned down: the result is longer than buffer_len, or has over 4,096 fields
 * Of several reasons the lowest is given. A buffer of MARK_RESULT_BYTES is long enough for every result: with it 16 comes from mark_design
 * alone, for too many fields.
 *
 * check_design has the same report for the text and for the result. Of what mark_design made of a text without a line of kind 8,
 * unmark_design makes the text again, byte for byte, in a buffer of at least text_len bytes.
 *
 * A call that is turned down writes nothing to the buffer. The bytes of the buffer after the result keep their content. There is no byte 0
 * at the end.
 *
 * Any bytes may be in the text. It is only read, and nothing of it is kept. The text, the buffer and *number must not overlap, and number
 * must not be NULL. An area of length 0 may have any address, NULL among them.
 *
 * The functions have no state, allocate nothing, make no system call and always return; threads may call them at the same time, each with a
 * buffer and a number of its own. They use less than 128 KiB of stack: 52,816 and 36,048 bytes, measured as above. They don't go over the
 * design's states: a call takes about as long as check_design takes to read the text.
 */
size_t mark_design(const uint8_t *text, size_t text_len, uint8_t *buffer, size_t buffer_len, uint32_t *number);
size_t unmark_design(const uint8_t *text, size_t text_len, uint8_t *buffer, size_t buffer_len, uint32_t *number);

/* What measure_design returns. */
#define MEASURE_FILLED 0
#define MEASURE_LOOP 1
#define MEASURE_TURNED_DOWN 2

/* The number that it gives when it turns a call down, beside 1 to 7 for a fault of the text. The last is for criterion 10 too. */
#define MEASURE_SHORT_SLICE 17
#define MEASURE_CRITERION_3 18

/* The most states that a design has: a slice of so many places is long enough for every text. */
#define MEASURE_PLACES 65536

/*
 * Makes the smallest measure there is for the design text of text_len bytes at text, whatever measure the text itself has, in the slice_len
 * places of 16 bits at slice. Place k is for the state with number k.
 *
 * Returns, and gives in *number, which is written in any case,
 *   0  0        filled: a measure is written
 *   1  a state  there is none: this state is on a loop, that is, marked steps lead from it to itself, through states where the invariant
 *               holds; 0 is written for every state
 *   2  1 to 7   turned down: the text is no design text; this is the number of its lowest fault
 *      17       turned down: slice_len is below the number of states, those where the invariant does not hold among them
 *      18       turned down: in some state criterion 3 fails, for some row, internal or visible; or criterion 10 does, by another term
 *               than the measure
 * Of several reasons to turn a call down the lowest is given. Whether the other criteria hold does not matter.
 *
 * The measure that is written is, in each state where the invariant holds, the length of the longest run of marked steps from there, counted
 * in steps; elsewhere it is 0. Criterion 5 holds by it, and it is nowhere larger than any other by which criterion 5 holds, be that a term's
 * value or any other number of 0 to 65,535 for each state. Where a loop is told, criterion 5 holds by none. Without a line of kind 8 all
 * internal steps are marked.
 *
 * The places after those of the states keep their content. A call that is turned down writes nothing to the slice.
 *
 * Any bytes may be in the text. It is only read, and nothing of it is kept. The text, the slice and *number must not overlap, slice and
 * number must be aligned as their types are, and number must not be NULL. An area of length 0 may have any address, NULL among them.
 *
 * The function has no state, allocates nothing, makes no system call and always returns; threads may call it at the same time, each with a
 * slice and a number of its own. It uses less than 512 KiB of stack: 284,256 bytes, measured as above, most of them for two arrays with a
 * place for each state. That is more than some threads have. How long it takes depends on the design: it looks once at each state, row and
 * sum value, for criteria 10 and 3, and once at each state, internal row and sum value, for the runs, however long these are, and at most
 * once more for each state.
 */
uint32_t measure_design(const uint8_t *text, size_t text_len, uint16_t *slice, size_t slice_len, uint32_t *number);

/* A design text taken apart, in memory of the caller's: what hold_design writes. The functions below read it where it stands. */
#define LOOK_FIELDS 4096
#define LOOK_STARTS 85
#define LOOK_COUNTS 5
#define LOOK_VALUES 8

struct held_design {
    uint16_t fields[LOOK_FIELDS]; /* the fields of all lines, one after the other */
    uint16_t starts[LOOK_STARTS]; /* the place in them where each line starts, and after those the place where the last line ends */
    size_t counts[LOOK_COUNTS];   /* how many lines are of kind 1, 2, 3, 4 and 8 */
};

/* A value that a term doesn't have, as it divides by zero, and what a formula is. */
#define LOOK_NO_VALUE 65536
#define LOOK_FAILS 0
#define LOOK_HOLDS 1
#define LOOK_NO_TRUTH 2

/* The two processes of a design. */
#define LOOK_IMPLEMENTATION 0
#define LOOK_SPECIFICATION 1

/* What look_state and look_row write, by place. */
#define LOOK_INVARIANT 0
#define LOOK_MEASURE 1
#define LOOK_MAPPED 2
#define LOOK_STATE_PLACES 10
#define LOOK_CONDITION 0
#define LOOK_MARK 1
#define LOOK_DATA 2
#define LOOK_NEXT 3
#define LOOK_ROW_PLACES 11

/*
 * The functions on a text that is taken apart have no state, allocate nothing, make no system call and always return; threads may call them
 * at the same time, each with places of its own to be written. Areas must not overlap, must be aligned as their types are, and must not be
 * NULL but for a text of length 0. They use less than 64 KiB of stack; of hold_design 27,616 bytes and of fault_line 27,696 were measured as
 * above. Whatever the places hold, the functions answer; but what they tell is about a text only after hold_design took it apart there.
 */

/*
 * Takes a design text apart, so that it can be looked at. Returns 0 and writes its lines to fields, starts and counts, which have LOOK_FIELDS,
 * LOOK_STARTS and LOOK_COUNTS places; or returns the number of the text's lowest fault, 1 to 7, and writes 0 to every place. The places
 * after those of the last line hold 0.
 */
uint32_t hold_design(const uint8_t *text, size_t text_len, uint16_t *fields, uint16_t *starts, size_t *counts);

/*
 * The first line from line `from` on, counted from 1, that shows the fault by which check_design turns the text down; 0 if there is none. Of
 * too many lines, fields or states it is the line with which the bound is passed, of two rows with one action the later, of spans that differ
 * the specification's. Every fault is shown by some line, but for a text that is too long and for too few lines of a kind.
 */
size_t fault_line(const uint8_t *text, size_t text_len, size_t from);

/*
 * The value term, or the formula, that begins at place `at` of the fields, in the state with these LOOK_VALUES values, 0 after the last
 * parameter's, and for this sum value: its value, or LOOK_NO_VALUE; LOOK_FAILS, LOOK_HOLDS or LOOK_NO_TRUTH. Where the field there is no mark
 * of such a term there is no value; where the fields are otherwise no well-formed term, what is told says nothing.
 */
uint32_t look_value(const uint16_t *fields, size_t at, const uint16_t *values, uint16_t sum);
uint32_t look_formula(const uint16_t *fields, size_t at, const uint16_t *values, uint16_t sum);

/*
 * A state of the implementation, by its LOOK_VALUES values. Writes LOOK_STATE_PLACES places: whether the invariant holds, the measure, and
 * from LOOK_MAPPED on the eight values of the mapped state, 0 after the last parameter's; each as look_formula and look_value tell it.
 */
void look_state(const uint16_t *fields, const uint16_t *starts, const size_t *counts, const uint16_t *values, uint32_t *told);

/*
 * A row of one of the two processes, counted from 1, at a state of that process and for a sum value. Writes LOOK_ROW_PLACES places: whether
 * the condition holds; whether the mark does, if the row is an internal one of the implementation, and LOOK_HOLDS otherwise or without a line of
 * kind 8; the data; and from LOOK_NEXT on the eight values of the next state, 0 after the last parameter's. The row is enabled if its condition
 * holds and the sum value is below its span. Where there is no such row every place is 0. Any side but LOOK_IMPLEMENTATION is the
 * specification.
 */
void look_row(const uint16_t *fields, const uint16_t *starts, const size_t *counts, uint32_t side, uint16_t row, const uint16_t *values,
              uint16_t sum, uint32_t *told);

/*
 * Whether a criterion, 2 to 9, holds at a state of the implementation, for a row, of the specification in criterion 7, and a sum value below
 * its span; row and sum value do not matter in criterion 2. Returns LOOK_HOLDS or LOOK_FAILS. It is asked where the invariant holds, and
 * nothing there is without a value (criterion 10).
 */
uint32_t look_criterion(const uint16_t *fields, const uint16_t *starts, const size_t *counts, const uint16_t *values, uint16_t criterion,
                        uint16_t row, uint16_t sum);

/* What same_duty returns. */
#define DUTY_SAME 0
#define DUTY_DIFFERS 1
#define DUTY_NO_DESIGN 2
#define DUTY_NO_DUTY 3

/*
 * Whether the specification in a design text is that of another, the duty: the fields of its lines of kind 2 are those of the duty's lines of
 * kind 2, line by line, and so of kind 4. Nothing else of the two is compared. Returns
 *   0  the same
 *   1  something differs
 *   2  the text is no design text
 *   3  the duty is no design text; the text is one
 * The texts are only read, and may be the same; one of length 0 may have any address, NULL among them. Threads may call it at the same time.
 * The function has no state, allocates nothing, makes no system call and always returns; it uses
 * less than 128 KiB of stack: 52,848 bytes, measured as above. Link with libduty.a.
 */
uint32_t same_duty(const uint8_t *text, size_t text_len, const uint8_t *duty, size_t duty_len);

/* A desk: a design is loaded, its states are examined in as many calls as one likes, and the verdict is told. It stands in memory of the
 * caller's, 9,208 bytes, which nothing but the functions below may write to. Link with liblent_desk.a. */
#define DESK_PLAN 387
#define DESK_PHASE 5

struct check_desk {
    struct held_design held;
    uint16_t plan[DESK_PLAN];
    size_t next; /* the number of the next state to examine: how far the check has come */
    uint16_t phase[DESK_PHASE];
};

/* What desk_advance returns beside CHECK_ACCEPTED, CHECK_FAILED, CHECK_TURNED_DOWN and CHECK_ACCEPTED_AFTER_INTERNAL. */
#define DESK_OPEN 4

/* The numbers by which calls on a desk are turned down, beside 1 to 7 for a fault of the text. */
#define DESK_NO_STATES 8
#define DESK_EMPTY 11
#define DESK_NOT_EMPTY 12
#define DESK_NOT_DECIDED 13
#define DESK_DECIDED 14

/* What the calls below make of the parts of a desk. */
void new_desk(uint16_t *fields, uint16_t *starts, size_t *counts, uint16_t *plan, size_t *next, uint16_t *phase);
uint32_t load_desk(uint16_t *fields, uint16_t *starts, size_t *counts, uint16_t *plan, size_t *next, uint16_t *phase, const uint8_t *text,
                   size_t text_len);
uint32_t advance_desk(uint16_t *fields, uint16_t *starts, size_t *counts, uint16_t *plan, size_t *next, uint16_t *phase, uint64_t n,
                      size_t *number);
void tell_desk(const uint16_t *phase, uint16_t *numbers);
uint32_t drop_desk(uint16_t *fields, uint16_t *starts, size_t *counts, uint16_t *plan, size_t *next, uint16_t *phase);

/* Makes a new desk, which is empty, whatever was there. */
static inline void desk_new(struct check_desk *d)
{
    new_desk(d->held.fields, d->held.starts, d->held.counts, d->plan, &d->next, d->phase);
}

/*
 * Loads a text on an empty desk, which is open then. The text is only read, and the desk keeps its own copy of its fields. Returns
 *   0       done
 *   1 to 7  turned down: the text is no design text; this is the number of its lowest fault
 *   12      turned down: the desk isn't empty
 */
static inline uint32_t desk_load(struct check_desk *d, const uint8_t *text, size_t text_len)
{
    return load_desk(d->held.fields, d->held.starts, d->held.counts, d->plan, &d->next, d->phase, text, text_len);
}

/*
 * Examines the next n states of an open desk, or those that remain. Returns, and gives in *number, which is written in any case,
 *   4  how many states were examined: the desk is still open
 *   0  the same: accepted as it is
 *   3  the same: accepted after a first internal step
 *   1  the same, the failing state included, and 0 if the start failed: failed
 *   2  turned down by 8, n is 0; 11, the desk is empty; 14, it is decided
 * However the states are divided into advances, the verdict is that of check_design.
 */
static inline uint32_t desk_advance(struct check_desk *d, uint64_t n, size_t *number)
{
    return advance_desk(d->held.fields, d->held.starts, d->held.counts, d->plan, &d->next, d->phase, n, number);
}

/* Tells the five numbers of the report of a decided desk. On an empty desk the first is 11, on an open one 13, and the others are 0. */
static inline void desk_verdict(const struct check_desk *d, uint16_t numbers[5])
{
    tell_desk(d->phase, numbers);
}

/* Empties a desk, open or decided. Returns 0, or 11: turned down, the desk is empty. */
static inline uint32_t desk_drop(struct check_desk *d)
{
    return drop_desk(d->held.fields, d->held.starts, d->held.counts, d->plan, &d->next, d->phase);
}

/*
 * A call that is turned down leaves the desk as it was. Any memory is some desk: one that desk_new did not make, or that was written to
 * otherwise, is no danger, but what it answers says nothing about a text. Neither it nor a number may be NULL. Threads may use desks of their
 * own at the same time. A call copies the desk. The functions have no state, allocate nothing, make no system call and always return; they
 * use less than 128 KiB of stack: 74,440 bytes, measured as above.
 */

#ifdef __cplusplus
}
#endif

#endif
