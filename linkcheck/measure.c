/* The smallest measure of a table. Whether there is one, and its numbers, are for measure_design to say. Here they are held against the
 * table, the text's own measure beside them, and the steps of a loop are found. Where that comes to something else than was said, only what
 * was said is written. */
#define _POSIX_C_SOURCE 200809L
#include "measure.h"
#include "explain.h"
#include "json.h"
#include "names.h"
#include "state.h"

#include <stdlib.h>
#include <string.h>

static struct state state_of(const struct measured *m, unsigned number) {
    return numbered_state(&m->table.impl, number);
}

static unsigned row_number(const struct measured *m, const struct step *step) {
    return (unsigned)(step->row - m->table.impl.row) + 1;
}

static struct step first_step(const struct measured *m) {
    return (struct step){m->table.impl.row, 0};
}

/* The number of the state that a step leads to. If one lacked a value or led outside the invariant, the table would have been turned
 * down. */
static unsigned led_to(struct measured *m, const struct state *s, const struct step *step) {
    const struct state next = next_state(&m->table.impl, step->row, s, step->sum);
    const bool fits = keeps_invariant(&m->table, &next);
    m->fits = m->fits && fits;
    return fits ? (unsigned)state_number(&m->table.impl, &next) : 0;
}

/* ---- a measure ---- */

unsigned excess(const struct measured *m, unsigned state) {
    return m->own[state] != NO_VALUE && m->own[state] > m->number[state] ? m->own[state] - m->number[state] : 0;
}

/* Where the text's own measure fails, if it hasn't before. NO_VALUE is above every measure. */
static void own_fails(struct measured *m, struct failure f) {
    if (m->own_meets) m->own_failure = f;
    m->own_meets = false;
}

/* The length of the longest run from a state, by the numbers of the states that its marked steps lead to, which are looked at for the
 * text's own measure too. */
static unsigned longest_run(struct measured *m, unsigned number, const struct state *s) {
    unsigned longest = 0;
    for (struct step at = first_step(m); marked_step(&m->table.impl, s, &at); at.sum++) {
        const unsigned next = led_to(m, s, &at);
        if (m->number[next] >= longest) longest = m->number[next] + 1u;
        if (m->own[next] >= m->own[number]) own_fails(m, (struct failure){SMALLER_MEASURE, number, row_number(m, &at), at.sum, false});
    }
    return longest;
}

static void look_at_own(struct measured *m) {
    for (unsigned k = 0; k < m->states; k++) {
        const struct state s = state_of(m, k);
        m->own[k] = invariant_holds(&m->table, &s) ? measure(&m->table, &s) : 0;
    }
}

/* Each number is the length of the longest run, 0 where the invariant does not hold. */
static void look_at_numbers(struct measured *m) {
    m->largest = m->above = 0;
    m->own_meets = true;
    look_at_own(m);
    for (unsigned k = 0; k < m->states; k++) {
        const struct state s = state_of(m, k);
        if (m->own[k] == NO_VALUE) own_fails(m, (struct failure){.criterion = VALUES, .state = k});
        if (m->number[k] != (invariant_holds(&m->table, &s) ? longest_run(m, k, &s) : 0)) m->fits = false;
        if (m->number[k] > m->number[m->largest]) m->largest = k;
        if (excess(m, k) > excess(m, m->above)) m->above = k;
    }
}

/* ---- a loop ---- */

/* Where the search for a loop has been: the states in the order in which they were found, and how; row 0 if a state wasn't. */
struct search {
    uint32_t found[MEASURE_PLACES];
    struct stop before[MEASURE_PLACES];
};

/* Goes from a state over marked steps, nearest states first, until it comes to that state again or there is no other. */
static void go_round(struct measured *m, struct search *g, unsigned start) {
    size_t count = 0;
    g->found[count++] = start;
    for (size_t i = 0; i < count && !g->before[start].row; i++) {
        const struct state s = state_of(m, g->found[i]);
        for (struct step at = first_step(m); marked_step(&m->table.impl, &s, &at); at.sum++) {
            const unsigned next = led_to(m, &s, &at);
            if (g->before[next].row) continue;
            g->before[next] = (struct stop){g->found[i], row_number(m, &at), at.sum};
            if (next != start) g->found[count++] = next;
        }
    }
}

/* The way that was found, from its end. */
static void gather(struct measured *m, const struct search *g, unsigned start) {
    unsigned at = start;
    m->length = 0;
    do {
        m->loop[m->length++] = g->before[at];
        at = g->before[at].state;
    } while (at != start);
    for (size_t i = 0, j = m->length - 1; i < j; i++, j--) {
        const struct stop kept = m->loop[i];
        m->loop[i] = m->loop[j];
        m->loop[j] = kept;
    }
}

/* Whether a marked step leads from one stop to the next, both within the invariant. */
static bool leads(struct measured *m, const struct stop *from, const struct stop *to) {
    const struct state s = state_of(m, from->state);
    const struct step step = {&m->table.impl.row[from->row - 1], from->sum};
    return invariant_holds(&m->table, &s) && step.row->action == INTERNAL && enabled(step.row, &s, step.sum) &&
           marked(step.row, &s, step.sum) && led_to(m, &s, &step) == to->state;
}

/* Where a loop is told there is 0 for every state. */
static bool all_zero(const struct measured *m) {
    unsigned k = 0;
    while (k < m->states && m->number[k] == 0) k++;
    return k == m->states;
}

static void find_loop(struct measured *m, unsigned start) {
    struct search *g = calloc(1, sizeof *g);
    if (!g) no_memory();
    m->fits = start < m->states && all_zero(m);
    if (m->fits) go_round(m, g, start);
    m->fits = m->fits && g->before[start].row;
    if (m->fits) gather(m, g, start);
    free(g);
    for (size_t i = 0; m->fits && i < m->length; i++) m->fits = leads(m, &m->loop[i], &m->loop[(i + 1) % m->length]);
}

/* ---- turned down ---- */

/* The first step from a state that fails criterion 3; its row is NULL if there is none. */
static struct step step_out(const struct table *t, const struct state *s) {
    for (const struct row *row = t->impl.row; row < t->impl.row + t->impl.rows; row++)
        for (unsigned sum = 0; sum < row->span; sum++) {
            if (!enabled(row, s, sum)) continue;
            const struct state next = next_state(&t->impl, row, s, sum);
            if (!keeps_invariant(t, &next)) return (struct step){row, sum};
        }
    return (struct step){NULL, 0};
}

/* Whether criterion 10, the measure apart, or else criterion 3 fails in a state, and which. */
static bool fails_in(struct measured *m, unsigned k) {
    const struct state s = state_of(m, k);
    m->failure = (struct failure){.criterion = VALUES, .state = k, .measure_apart = true};
    if (first_missing(&m->table, &s, ALL_BUT_MEASURE).part) return true;
    if (!invariant_holds(&m->table, &s)) return false;
    const struct step out = step_out(&m->table, &s);
    if (out.row) m->failure = (struct failure){KEEPS_INVARIANT, k, row_number(m, &out), out.sum, false};
    return out.row;
}

static void find_failure(struct measured *m) {
    unsigned k = 0;
    while (k < m->states && !fails_in(m, k)) k++;
    if (k == m->states) return;
    m->fault.number = MEASURE_CRITERION_3;
    m->fault.criterion = m->failure.criterion;
}

/* ---- all of it ---- */

/* Looks at a table for what there is to tell. */
static void look_at_table(struct measured *m) {
    m->states = (unsigned)state_count(&m->table.impl);
    m->fits = true;
    switch (m->outcome) {
    case MEASURE_FILLED:
        look_at_numbers(m);
        m->fits = m->fits && m->given == 0;
        break;
    case MEASURE_LOOP: find_loop(m, m->given); break;
    default:
        if (m->given == MEASURE_CRITERION_3) find_failure(m);
        m->fits = m->fault.number == MEASURE_CRITERION_3;
    }
}

/* Gives false if what measure_design says is no answer. */
static bool measure_of(struct measured *m, const struct text *text) {
    m->whole = m->fits = false;
    if (text->slips) {
        m->outcome = MEASURE_TURNED_DOWN;
        m->fault = fault_of(text, 0);
        m->fits = true;
        return true;
    }
    m->outcome = measure_design(text->bytes, text->len, m->number, MEASURE_PLACES, &m->given);
    if (m->outcome > MEASURE_TURNED_DOWN) return false;
    m->fault = table_read(&m->table, text);
    m->whole = !m->fault.number && table_hold(&m->table, text->bytes, text->len);
    m->fits = m->outcome == MEASURE_TURNED_DOWN && m->fault.number && m->fault.number == m->given;
    if (m->whole) look_at_table(m);
    return true;
}

/* ---- in words ---- */

static void print_at(struct output *out, const struct measured *m, unsigned number) {
    const struct state s = state_of(m, number);
    print_numbered(out, &m->table.impl, &s);
}

static void print_own(struct output *out, const struct measured *m) {
    put(out, "own measure: ");
    if (!m->own_meets) {
        print(out, "fails criterion %u, ", m->own_failure.criterion);
        print_failure(out, &m->table, &m->own_failure);
    } else if (excess(m, m->above) == 0) {
        put(out, "the smallest");
    } else {
        print(out, "meets criterion 5, at most %u above the smallest, first in ", excess(m, m->above));
        print_at(out, m, m->above);
        print(out, ": %u, where %u is enough", m->own[m->above], m->number[m->above]);
    }
    put(out, "\n");
}

static void print_filled(struct output *out, const struct measured *m) {
    const unsigned largest = m->number[m->largest];
    if (largest == 0) {
        put(out, "smallest measure: 0, as no marked step starts where the invariant holds\n");
    } else {
        print(out, "smallest measure: at most %u, first in ", largest);
        print_at(out, m, m->largest);
        put(out, "\n");
    }
    print_own(out, m);
}

static void print_loop(struct output *out, const struct measured *m) {
    put(out, "no measure meets criterion 5: marked internal steps form a loop\n");
    for (size_t i = 0; i < m->length; i++) {
        print_at(out, m, m->loop[i].state);
        print(out, ", row %u, sum value %u ->\n", m->loop[i].row, m->loop[i].sum);
    }
    print_at(out, m, m->loop[0].state);
    put(out, "\n");
}

/* What was said alone: whether there is a measure, or a state on a loop. */
static void print_bare(struct output *out, const struct measured *m) {
    if (m->outcome == MEASURE_LOOP) print(out, "no measure meets criterion 5: state %lu is on a loop\n", (unsigned long)m->given);
    else put(out, "there is a measure that meets criterion 5\n");
}

static int say_turned_down(const char *name, const struct measured *m) {
    struct output *out = message();
    put_name(out, name);
    put(out, ": ");
    if (m->fits) print_turned_down(out, &m->fault);
    else print(out, "turned down %lu", (unsigned long)m->given);
    if (m->fits && m->fault.number == MEASURE_CRITERION_3) {
        put(out, ": ");
        print_failure(out, &m->table, &m->failure);
    }
    return message_sent(out, MEASURE_TURNED_DOWN);
}

static int print_measured(struct output *out, const char *name, const struct measured *m) {
    put_name(out, name);
    put(out, "  ");
    if (!m->fits) print_bare(out, m);
    else if (m->outcome == MEASURE_LOOP) print_loop(out, m);
    else print_filled(out, m);
    return (int)m->outcome;
}

static int say_unreadable(struct output *out, const char *name, enum format format, const char *why) {
    if (format == JSON) {
        json_unreadable(out, "measure", name, why);
        put(out, "\n");
    }
    return complain(STATUS_UNREAD, name, why);
}

int write_measure(struct output *out, const char *name, enum format format) {
    static struct text text;
    static struct measured measured;
    const int error = text_read(&text, name);
    if (error) return say_unreadable(out, name, format, strerror(error));
    if (!measure_of(&measured, &text)) return say_unreadable(out, name, format, other_rules);
    if (format == JSON) {
        json_measure(out, name, &measured);
        put(out, "\n");
        return (int)measured.outcome;
    }
    return measured.outcome == MEASURE_TURNED_DOWN ? say_turned_down(name, &measured) : print_measured(out, name, &measured);
}
