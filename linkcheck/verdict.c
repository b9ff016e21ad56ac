/* Checking a text: the worked example of a program that calls check_design. */
#define _POSIX_C_SOURCE 200809L
#include "verdict.h"
#include "duty.h"
#include "explain.h"
#include "output.h"
#include "watch.h"

#include <stdio.h>
#include <string.h>

/* In place of the report on a typed file that has something else than numbers: turned down, by no number. */
static const char no_numbers[CHECK_REPORT_BYTES + 1] = "     2     0     0     0     0\n";

/* The number in the six columns of a report's field. */
static unsigned report_number(const uint8_t *report, int field) {
    unsigned number = 0;
    for (int i = field * COLUMNS; i < (field + 1) * COLUMNS; i++)
        if (report[i] != ' ') number = 10 * number + (report[i] - '0');
    return number;
}

const char other_rules[] = "the library was built for other rules than linkcheck; build both anew";

/* Whether criterion 1 fails: in the initial state the invariant doesn't hold, or the mapping leads elsewhere. */
static bool start_fails(const struct table *t, const struct state *s) {
    const struct state boards = initial_state(&t->impl), ours = initial_state(&t->spec), m = mapped(t, s);
    return same_state(&t->impl, s, &boards) && !(invariant_holds(t, s) && same_state(&t->spec, &m, &ours));
}

/* Criteria 3 to 9 fail by a row. Where one fails that looks at the next state or at our row, those before it have seen to these. */
static bool step_fits(const struct table *t, const struct state *s, const struct failure *f, const struct row *row) {
    const bool internal = row->action == INTERNAL;
    if (f->sum >= row->span) return false;
    switch (f->criterion) {
    case KEEPS_MAPPING: case SMALLER_MEASURE: return internal && criterion_holds(t, s, KEEPS_INVARIANT, f->row, f->sum);
    case ALLOWED: return !internal;
    case DATA: return !internal && criterion_holds(t, s, ALLOWED, f->row, f->sum);
    case NEXT: return !internal && criterion_holds(t, s, ALLOWED, f->row, f->sum) && criterion_holds(t, s, KEEPS_INVARIANT, f->row, f->sum);
    default: return true;
    }
}

/* Criterion 10 is tried before 2 to 9: it is the one that fails in a state exactly if something there has no value. */
static bool failure_fits(const struct table *t, const struct failure *f) {
    if (f->criterion < START || f->criterion > VALUES || f->state >= state_count(&t->impl)) return false;
    const struct state s = numbered_state(&t->impl, f->state);
    const struct row *row = failing_row(t, f);
    const bool by_row = f->criterion >= KEEPS_INVARIANT && f->criterion <= NEXT;
    if (by_row ? !row : f->row != 0 || f->sum != 0) return false;
    if (f->criterion == START) return start_fails(t, &s);
    const bool lacks = first_missing(t, &s, ALL).part != NOTHING;
    if (f->criterion == VALUES || lacks) return f->criterion == VALUES && lacks;
    if (by_row && !step_fits(t, &s, f, row)) return false;
    return invariant_holds(t, &s) && !criterion_holds(t, &s, f->criterion, f->row, f->sum);
}

/* A table is accepted after a first internal step exactly if an internal row is enabled in its initial state. */
static bool acceptance_fits(struct verdict *v) {
    const struct state start = initial_state(&v->table.impl);
    v->first = first_internal_step(&v->table.impl, &start);
    return (v->outcome == CHECK_ACCEPTED_AFTER_INTERNAL) == (v->first.row != NULL);
}

/* ---- in pieces ---- */

/* How many states the design on a desk has. */
static size_t states_of(const struct check_desk *d) {
    size_t states = 1;
    for (size_t i = 0; i < d->held.counts[0]; i++) states *= d->held.fields[d->held.starts[i] + 1];
    return states;
}

/* Advances of such a size that each takes about as long as this, in seconds. */
static const double shortest = 0.01, longest = 0.04;

/* Examines states until the desk is decided or the time is over. Gives what the last advance gave. */
static uint32_t advance(struct verdict *v, struct check_desk *d) {
    uint32_t answer = DESK_OPEN;
    double last = seconds_now(), told = last;
    for (uint64_t n = 1; answer == DESK_OPEN && !time_is_over();) {
        size_t examined = 0;
        answer = desk_advance(d, n, &examined);
        v->examined += examined;
        const double now = seconds_now();
        if (now - last < shortest) n *= 2;
        else if (now - last > longest && n > 1) n /= 2;
        if (watch.tell && answer == DESK_OPEN && now - told >= longest) {
            watch.tell(v->examined, v->states);
            told = now;
        }
        last = now;
    }
    return answer;
}

/* Checks the text on a desk. Gives the outcome, with its report, which is that of check_design. */
static uint32_t check_watched(struct verdict *v, const struct text *t) {
    static struct check_desk desk;
    uint16_t number[5] = {CHECK_TURNED_DOWN};
    char report[64];
    desk_new(&desk);
    const uint32_t fault = desk_load(&desk, t->bytes, t->len);
    uint32_t outcome = CHECK_TURNED_DOWN;
    if (fault) {
        number[1] = (uint16_t)fault;
    } else {
        v->states = states_of(&desk);
        outcome = advance(v, &desk);
        desk_verdict(&desk, number);
        v->unfinished = outcome == DESK_OPEN;
    }
    snprintf(report, sizeof report, "%6u%6u%6u%6u%6u\n", number[0], number[1], number[2], number[3], number[4]);
    memcpy(v->report, report, sizeof v->report);
    return outcome;
}

/* ---- all of it ---- */

/* The table, so that it can be looked at. */
static bool is_whole_table(struct verdict *v, const struct text *t) {
    return !table_read(&v->table, t).number && table_hold(&v->table, t->bytes, t->len);
}

/* What check_design or the desk has said, taken apart and explained. */
static bool take_outcome(struct verdict *v, const struct text *t) {
    if (v->outcome > CHECK_ACCEPTED_AFTER_INTERNAL || report_number(v->report, 0) != v->outcome) return false;
    const unsigned second = report_number(v->report, 1);
    v->failure = (struct failure){second, report_number(v->report, 2), report_number(v->report, 3), report_number(v->report, 4), false};
    v->whole = v->outcome != CHECK_TURNED_DOWN && is_whole_table(v, t);
    if (v->outcome == CHECK_TURNED_DOWN) v->fault = fault_of(t, second);
    v->fits = v->whole && (v->outcome == CHECK_FAILED ? failure_fits(&v->table, &v->failure) : acceptance_fits(v));
    return true;
}

bool verdict_of(struct verdict *v, const struct text *t) {
    v->whole = v->fits = v->other_duty = v->unfinished = false;
    v->examined = v->states = 0;
    if (t->slips) {
        v->outcome = CHECK_TURNED_DOWN;
        v->fault = fault_of(t, 0);
        memcpy(v->report, no_numbers, sizeof v->report);
        return true;
    }
    const uint32_t duty = duty_answer(t);
    if (duty == DUTY_DIFFERS) {
        v->other_duty = true;
        v->whole = is_whole_table(v, t);
        return true;
    }
    time_starts();
    v->outcome = watching() ? check_watched(v, t) : check_design(t->bytes, t->len, v->report, sizeof v->report);
    if (v->unfinished) return true;
    /* A text that is no design text has no duty, and is turned down; any other answer about the duty is none. */
    if (duty != DUTY_SAME && !(duty == DUTY_NO_DESIGN && v->outcome == CHECK_TURNED_DOWN)) return false;
    return take_outcome(v, t);
}
