/* Values and formulas. Functions that call each other, as a value may hold a formula and a formula holds values. */
#define _POSIX_C_SOURCE 200809L
#include "terms.h"

/* ---- scanning ---- */

static void scan_formula_within(struct scan *s, int depth);

/* The next field; 0 if something is wrong, as it is past the line's end. */
static unsigned take(struct scan *s) {
    if (!s->wrong && s->at == s->end) s->wrong = "the line ends early";
    return s->wrong ? 0 : *s->at++;
}

/* The field just taken is wrong. */
static void refuse(struct scan *s, const char *why) {
    s->at--;
    s->wrong = why;
}

static void scan_value_within(struct scan *s, int depth) {
    unsigned mark = take(s);
    if (s->wrong) return;
    if (depth == 0) { refuse(s, "the term is deeper than 32"); return; }
    switch (mark) {
    case NUMBER: take(s); break;
    case PARAMETER:
        if (take(s) >= s->parameters && !s->wrong) refuse(s, "there is no such parameter");
        break;
    case SUM_VALUE:
        if (!s->has_sum) refuse(s, "the sum value is for rows and marks alone");
        break;
    case SUM: case DIFFERENCE: case REMAINDER: case CHOICE:
        if (mark == CHOICE) scan_formula_within(s, depth - 1);
        scan_value_within(s, depth - 1);
        scan_value_within(s, depth - 1);
        break;
    default: refuse(s, "a value is due, which has a mark of 0 to 6");
    }
}

static void scan_formula_within(struct scan *s, int depth) {
    unsigned mark = take(s);
    if (s->wrong) return;
    if (depth == 0) { refuse(s, "the term is deeper than 32"); return; }
    switch (mark) {
    case TRUE: case FALSE: break;
    case EQUAL: case LESS:
        scan_value_within(s, depth - 1);
        scan_value_within(s, depth - 1);
        break;
    case NOT: scan_formula_within(s, depth - 1); break;
    case AND: case OR:
        scan_formula_within(s, depth - 1);
        scan_formula_within(s, depth - 1);
        break;
    default: refuse(s, "a formula is due, which has a mark of 10 to 16");
    }
}

term scan_value(struct scan *s) {
    term start = s->at;
    scan_value_within(s, MAX_DEPTH);
    return start;
}

term scan_formula(struct scan *s) {
    term start = s->at;
    scan_formula_within(s, MAX_DEPTH);
    return start;
}

/* ---- parts, and their values ---- */

static const uint8_t parts_of[] = {
    [SUM] = 2, [DIFFERENCE] = 2, [REMAINDER] = 2, [CHOICE] = 3, [EQUAL] = 2, [LESS] = 2, [NOT] = 1, [AND] = 2, [OR] = 2,
};

/* Passes a term, and gives what it reads. */
static unsigned reads(term *at) {
    unsigned read = 0;
    for (unsigned due = 1; due > 0; due--) {
        const unsigned mark = *(*at)++;
        if (mark == SUM_VALUE) read |= READS_SUM;
        if (mark == PARAMETER) read |= 1u << **at;
        if (mark == NUMBER || mark == PARAMETER) ++*at;
        due += parts_of[mark];
    }
    return read;
}

unsigned reads_of(term t) {
    return reads(&t);
}

term passed(term t) {
    reads(&t);
    return t;
}

static unsigned value_at(term v, const struct point *p) {
    return look_value(p->table->held.fields, (size_t)(v - p->table->field), p->values, p->sum);
}

static unsigned truth_at(term f, const struct point *p) {
    return look_formula(p->table->held.fields, (size_t)(f - p->table->field), p->values, p->sum);
}

/* A term's mark says whether it is a value or a formula. */
static bool lacks_value(term t, const struct point *p) {
    return *t < TRUE ? value_at(t, p) == NO_VALUE : truth_at(t, p) == LOOK_NO_TRUTH;
}

/* The first part without a value, of those that are evaluated; NULL if there is none. */
static term lacking_part(term whole, const struct point *p) {
    term at = whole + 1;
    if (*whole == CHOICE && !lacks_value(at, p)) {
        const bool first = truth_at(at, p) == LOOK_HOLDS;
        at = first ? passed(at) : passed(passed(at));
        return lacks_value(at, p) ? at : NULL;
    }
    for (unsigned due = parts_of[*whole]; due > 0; due--, at = passed(at))
        if (lacks_value(at, p)) return at;
    return NULL;
}

struct gap gap_in(term t, const struct point *p) {
    if (!lacks_value(t, p)) return (struct gap){NULL, 0};
    for (term part = t; part; part = lacking_part(t, p)) t = part;
    return *t == REMAINDER ? (struct gap){t, value_at(t + 1, p)} : (struct gap){NULL, 0};
}

term failing_conjunct(term f, const struct point *p) {
    if (*f != AND) return truth_at(f, p) == LOOK_FAILS ? f : NULL;
    const term first = failing_conjunct(f + 1, p);
    return first ? first : failing_conjunct(passed(f + 1), p);
}

unsigned pinned_by(term f) {
    if (*f == AND) return pinned_by(f + 1) | pinned_by(passed(f + 1));
    const bool pins = *f == EQUAL && f[1] == PARAMETER && f[3] == NUMBER;
    return pins ? 1u << f[2] : 0;
}

/* ---- infix ---- */

/* How tightly a term binds. A term that binds less than its place asks for gets brackets. */
enum { LOOSE, CHOOSES, ADDS = 2, DIVIDES, LEAF };
enum { EITHER = 1, BOTH, COMPARES, DENIES };

struct printer {
    struct output *out;
    char letter;
};

static void formula_text(struct printer *p, term *at, int place);

static void value_text(struct printer *p, term *at, int place) {
    static const int binds[] = {LEAF, LEAF, LEAF, ADDS, ADDS, DIVIDES, CHOOSES};
    unsigned mark = *(*at)++;
    bool brackets = binds[mark] < place;
    if (brackets) put(p->out, "(");
    switch (mark) {
    case NUMBER: print(p->out, "%u", *(*at)++); break;
    case PARAMETER: print(p->out, "%c%u", p->letter, *(*at)++); break;
    case SUM_VALUE: put(p->out, "s"); break;
    case SUM:
        value_text(p, at, ADDS);
        put(p->out, " + ");
        value_text(p, at, ADDS); /* modulo 65,536, a + (b - c) is a + b - c */
        break;
    case DIFFERENCE:
        value_text(p, at, ADDS);
        put(p->out, " - ");
        value_text(p, at, DIVIDES);
        break;
    case REMAINDER:
        value_text(p, at, DIVIDES);
        put(p->out, " mod ");
        value_text(p, at, LEAF);
        break;
    case CHOICE:
        put(p->out, "if ");
        formula_text(p, at, LOOSE);
        put(p->out, " then ");
        value_text(p, at, ADDS);
        put(p->out, " else ");
        value_text(p, at, CHOOSES);
        break;
    }
    if (brackets) put(p->out, ")");
}

static void comparison_text(struct printer *p, term *at, const char *sign) {
    value_text(p, at, ADDS);
    print(p->out, " %s ", sign);
    value_text(p, at, ADDS);
}

static void denial_text(struct printer *p, term *at) {
    unsigned mark = **at;
    if (mark == EQUAL || mark == LESS) {
        ++*at;
        comparison_text(p, at, mark == EQUAL ? "!=" : ">=");
    } else {
        put(p->out, "not ");
        formula_text(p, at, DENIES);
    }
}

static void formula_text(struct printer *p, term *at, int place) {
    static const int binds[] = {DENIES, DENIES, COMPARES, COMPARES, COMPARES, BOTH, EITHER};
    unsigned mark = *(*at)++;
    int own = binds[mark - TRUE];
    bool brackets = own < place;
    if (brackets) put(p->out, "(");
    switch (mark) {
    case TRUE: put(p->out, "true"); break;
    case FALSE: put(p->out, "false"); break;
    case EQUAL: comparison_text(p, at, "="); break;
    case LESS: comparison_text(p, at, "<"); break;
    case NOT: denial_text(p, at); break;
    default:
        formula_text(p, at, own);
        put(p->out, mark == AND ? " and " : " or ");
        formula_text(p, at, own);
    }
    if (brackets) put(p->out, ")");
}

term print_value(struct output *out, term v, char letter) {
    value_text(&(struct printer){out, letter}, &v, LOOSE);
    return v;
}

term print_formula(struct output *out, term f, char letter) {
    formula_text(&(struct printer){out, letter}, &f, LOOSE);
    return f;
}

/* Each as a part of `and`. */
static void conjuncts_text(struct printer *p, term *at, const char *between) {
    if (**at != AND) {
        formula_text(p, at, BOTH);
        return;
    }
    ++*at;
    conjuncts_text(p, at, between);
    put(p->out, between);
    conjuncts_text(p, at, between);
}

void print_conjuncts(struct output *out, term f, char letter, const char *between) {
    if (*f == AND) conjuncts_text(&(struct printer){out, letter}, &f, between);
    else print_formula(out, f, letter);
}

void print_reads(struct output *out, unsigned reads, char letter, const struct point *p) {
    const char *before = " with ";
    for (unsigned i = 0; i < MAX_PARAMETERS; i++) {
        if (!(reads & 1u << i)) continue;
        print(out, "%s%c%u = %u", before, letter, i, p->values[i]);
        before = ", ";
    }
    if (reads & READS_SUM) print(out, "%ss = %u", before, p->sum);
}
