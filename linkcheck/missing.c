/* What has no value in a state, and why. */
#define _POSIX_C_SOURCE 200809L
#include "missing.h"

/* No term outside rows and marks reads the sum value. */
enum { NO_SUM = 0 };

static const struct missing nothing;

/* ---- single parts ---- */

/* A term that has no value where `place` says. */
static struct missing in_term(enum part part, term t, struct missing place) {
    const struct point p = point_at(place.table, &place.at, place.sum);
    place.gap = gap_in(t, &p);
    place.part = part;
    return place.gap.at ? place : nothing;
}

/* The first of `count` values that is told to be missing; the terms stand one after the other. */
static struct missing in_values(enum part part, term v, const uint32_t *told, unsigned count, struct missing place) {
    for (; place.parameter < count; place.parameter++, v = passed(v))
        if (told[place.parameter] == LOOK_NO_VALUE) return in_term(part, v, place);
    return nothing;
}

static struct missing place_outside_rows(const struct table *t, const struct state *s) {
    return (struct missing){.table = t, .process = &t->impl, .sum = NO_SUM, .at = *s};
}

static struct missing in_invariant(const struct table *t, const struct state *s, const struct state_look *look) {
    return look->told[LOOK_INVARIANT] == LOOK_NO_TRUTH ? in_term(THE_INVARIANT, t->invariant, place_outside_rows(t, s)) : nothing;
}

static struct missing in_mapping(const struct table *t, const struct state *s, const struct state_look *look) {
    return in_values(A_MAPPED_VALUE, t->mapping, look->told + LOOK_MAPPED, t->spec.parameters, place_outside_rows(t, s));
}

static struct missing in_measure(const struct table *t, const struct state *s, const struct state_look *look) {
    return in_values(THE_MEASURE, t->measure, look->told + LOOK_MEASURE, 1, place_outside_rows(t, s));
}

struct missing missing_invariant(const struct table *t, const struct state *s) {
    const struct state_look look = state_at(t, s);
    return in_invariant(t, s, &look);
}

struct missing missing_mapped(const struct table *t, const struct state *s) {
    const struct state_look look = state_at(t, s);
    return in_mapping(t, s, &look);
}

struct missing missing_measure(const struct table *t, const struct state *s) {
    const struct state_look look = state_at(t, s);
    return in_measure(t, s, &look);
}

/* ---- rows, and all of it ---- */

struct missing missing_in_row(const struct process *p, const struct row *row, const struct state *s, unsigned sum) {
    const struct row_look look = row_at(row, s, sum);
    const struct missing place = {.table = row->table, .process = p, .row = row, .sum = sum, .at = *s};
    if (look.told[LOOK_CONDITION] == LOOK_NO_TRUTH) return in_term(A_CONDITION, row->condition, place);
    if (look.told[LOOK_MARK] == LOOK_NO_TRUTH) return in_term(A_MARK, row->mark, place);
    if (look.told[LOOK_CONDITION] != LOOK_HOLDS) return nothing;
    const struct missing m = in_values(DATA_NUMBER, row->data, look.told + LOOK_DATA, 1, place);
    return m.part ? m : in_values(A_NEXT_VALUE, row->next, look.told + LOOK_NEXT, p->parameters, place);
}

struct missing missing_in_rows(const struct process *p, const struct state *s) {
    for (const struct row *row = p->row; row < p->row + p->rows; row++)
        for (unsigned sum = 0; sum < row->sums; sum++) {
            const struct missing m = missing_in_row(p, row, s, sum);
            if (m.part) return m;
        }
    return nothing;
}

struct missing first_missing(const struct table *t, const struct state *s, enum asked asked) {
    const struct state_look look = state_at(t, s);
    struct missing m = in_invariant(t, s, &look);
    if (look.told[LOOK_INVARIANT] != LOOK_HOLDS) return m;
    m = in_mapping(t, s, &look);
    if (!m.part && asked == ALL) m = in_measure(t, s, &look);
    if (!m.part) m = missing_in_rows(&t->impl, s);
    if (m.part) return m;
    const struct state ours = mapped(t, s);
    return missing_in_rows(&t->spec, &ours);
}

/* ---- in words ---- */

const char *part_word(enum part part) {
    static const char *const words[] = {
        [NOTHING] = "", [THE_INVARIANT] = "invariant", [A_MAPPED_VALUE] = "mapping", [THE_MEASURE] = "measure",
        [A_CONDITION] = "condition", [A_MARK] = "mark", [DATA_NUMBER] = "data", [A_NEXT_VALUE] = "next value",
    };
    return words[part];
}

unsigned missing_row(const struct missing *m) {
    return (unsigned)(m->row - m->process->row) + 1;
}

bool missing_is_ours(const struct table *t, const struct missing *m) {
    return m->process == &t->spec;
}

static char letter_of(const struct table *t, const struct missing *m) {
    return missing_is_ours(t, m) ? 'q' : 'p';
}

static void print_part(struct output *out, const struct table *t, const struct missing *m) {
    const bool ours = missing_is_ours(t, m);
    if (!m->row) {
        print(out, "the %s", part_word(m->part));
        if (m->part == A_MAPPED_VALUE) print(out, "'s value %u (q%u)", m->parameter + 1, m->parameter);
        return;
    }
    put(out, part_word(m->part));
    if (m->part == A_NEXT_VALUE) print(out, " of %c%u", letter_of(t, m), m->parameter);
    print(out, " of %srow %u", ours ? "the specification's " : "", missing_row(m));
    if (m->row->span > 1) print(out, " for sum value %u", m->sum);
    if (!ours) return;
    put(out, " at the mapped state ");
    print_state(out, &t->spec, &m->at);
}

void print_gap(struct output *out, const struct table *t, const struct missing *m) {
    print_value(out, m->gap.at, letter_of(t, m));
}

void print_missing(struct output *out, const struct table *t, const struct missing *m) {
    print(out, "no value in line %zu, ", line_of(t, m->gap.at));
    print_part(out, t, m);
    put(out, ": ");
    print_gap(out, t, m);
    const struct point p = point_at(t, &m->at, m->sum);
    print_reads(out, reads_of(passed(m->gap.at + 1)), letter_of(t, m), &p);
}
