/* The walk in plain C, written for speed: state by state, every row, every sum value. Terms are decoded once, into nodes, and what can't matter
 * is left out: a part of `15` or `16` where the other decides, the branch of `6` that is not taken, what doesn't read the sum value for any but
 * the first that enables the row, the data of internal rows, the measure where no internal row asks for it. What is the same in several states
 * is looked at in each: nothing is carried from one state to the next. A state is left at its first failure. A term that is evaluated and divides
 * by zero makes its state fail, whichever criterion it is that names it; so a part that can lack a value is evaluated wherever the rules do that,
 * even where it decides nothing. Divisors are looked at by themselves, as far as that saves such a part. */
#ifndef WALK_PLAIN_H
#define WALK_PLAIN_H
#include "table.h"

/* An operand below LEAVES is a place where a number stands: those of the parameters, that of the sum value, then the numbers of the design, and
 * from the end down what rows keep for all their sum values. From LEAVES on it is a node. */
enum { PARAMETERS = 8, SUM = PARAMETERS, NO, YES, LEAVES = 4096 };

enum { PLUS, MINUS, REMAINDER, CHOICE, SAME, LESS, NOT, AND, OR, BOTH, EITHER };

/* BOTH and EITHER are AND and OR whose parts both can lack a value. */
struct node { uint16_t op, a, b, c; };

/* A decoded term: whether it reads the sum value, whether it reads a parameter, and whether it can lack a value. */
struct term { uint16_t at; uint8_t reads, varies, lacks; };

/* A term that doesn't read the sum value, in one that does: evaluated once for all sum values, and put into its place. And some of these. */
struct kept { uint16_t term, place; };
struct range { unsigned from, to; };

/* How many sum values there are where a term stands, and whether it is evaluated for each of them in every state that is looked at. */
struct where { unsigned span; int always; };

/* A row. Its condition is `free`, which doesn't read the sum value, and `rest`, which does. */
struct row {
    unsigned action, span;
    struct term free, rest, data, next[PARAMETERS], mark;
    struct range in_condition, in_step, in_mark; /* what is kept */
    struct range divisors;                       /* those in the condition that don't read the sum value */
    const struct row *partner;                   /* the row of the same action in the other process */
    uint8_t next_reads;                          /* whether a next value reads the sum value */
    uint8_t again;                               /* whether more than its condition does, its partner's terms among it */
    uint8_t lacks;                               /* whether any but its mark can lack a value */
};

struct plain {
    const struct table *table;
    struct node nodes[4096];
    struct kept kept[2048];
    uint16_t divisors[2048];
    unsigned made, leaves, keeps, divides;
    unsigned params, spec_params, rows, spec_rows, internal;
    unsigned size[PARAMETERS], spec_size[PARAMETERS];
    struct row row[32], spec_row[32];
    struct term invariant, mapping[PARAMETERS], measure;
    uint16_t v[LEAVES], w[LEAVES], x[LEAVES]; /* the places: at a state, at its mapped state, at a next state */
    int missing;                              /* whether a term that was evaluated has no value */
};

struct plain_answer { unsigned verdict; size_t state; };

/* ---- terms ---- */

static uint16_t inner(struct plain *p, const uint16_t *s, const struct node *n);

static inline uint16_t get(struct plain *p, const uint16_t *s, unsigned at)
{
    return at < LEAVES ? s[at] : inner(p, s, p->nodes + (at - LEAVES));
}

static uint16_t inner(struct plain *p, const uint16_t *s, const struct node *n)
{
    switch (n->op) {
    case PLUS: return get(p, s, n->a) + get(p, s, n->b);
    case MINUS: return get(p, s, n->a) - get(p, s, n->b);
    case REMAINDER: {
        uint16_t a = get(p, s, n->a), b = get(p, s, n->b);
        if (!b) { p->missing = 1; return 0; }
        return a % b;
    }
    case CHOICE: return get(p, s, n->a) ? get(p, s, n->b) : get(p, s, n->c);
    case SAME: return get(p, s, n->a) == get(p, s, n->b);
    case LESS: return get(p, s, n->a) < get(p, s, n->b);
    case NOT: return !get(p, s, n->a);
    case AND: return get(p, s, n->a) && get(p, s, n->b);
    case OR: return get(p, s, n->a) || get(p, s, n->b);
    case BOTH: { uint16_t a = get(p, s, n->a), b = get(p, s, n->b); return a & b; }
    default: { uint16_t a = get(p, s, n->a), b = get(p, s, n->b); return a | b; }
    }
}

static void keep(struct plain *p, uint16_t *s, struct range r)
{
    for (unsigned i = r.from; i < r.to; i++) s[p->kept[i].place] = get(p, s, p->kept[i].term);
}

/* whether none of these divisors is 0 */
static int divides(struct plain *p, const uint16_t *s, struct range r)
{
    for (unsigned i = r.from; i < r.to; i++) if (!get(p, s, p->divisors[i])) return 0;
    return 1;
}

/* ---- decoding ---- */

/* the place of a number */
static unsigned number(struct plain *p, uint16_t n)
{
    for (unsigned i = NO; i < p->leaves; i++) if (p->v[i] == n) return i;
    p->v[p->leaves] = n;
    return p->leaves++;
}

static struct term node(struct plain *p, unsigned op, struct term a, struct term b, struct term c)
{
    p->nodes[p->made] = (struct node){op, a.at, b.at, c.at};
    return (struct term){LEAVES + p->made++, a.reads | b.reads | c.reads, a.varies | b.varies | c.varies, a.lacks | b.lacks | c.lacks};
}

/* `15` or `16`: the part that can lack a value comes first, as it is evaluated in any case */
static struct term joined(struct plain *p, unsigned op, struct term a, struct term b)
{
    if (a.lacks && b.lacks) return node(p, op == AND ? BOTH : EITHER, a, b, a);
    return b.lacks ? node(p, op, b, a, a) : node(p, op, a, b, a);
}

/* A term as a part of one that reads the sum value, or not: if so, what doesn't read it is kept. */
static struct term part(struct plain *p, struct term t, int reads)
{
    if (!reads || t.reads || t.lacks || t.at < LEAVES) return t;
    unsigned place = LEAVES - 1 - p->keeps;
    p->kept[p->keeps++] = (struct kept){t.at, place};
    return (struct term){place, 0, t.varies, 0};
}

/* Whether a remainder by this can lack a value: not if the divisor is above 0 for every sum value, nor if the row looks at it before. */
static int can_lack(struct plain *p, struct term divisor, struct where w)
{
    if (divisor.lacks) return 1;
    if (!divisor.varies) {
        int is_zero = 0;
        for (unsigned e = 0; e < w.span; e++) {
            p->v[SUM] = e;
            is_zero |= !get(p, p->v, divisor.at);
        }
        return is_zero;
    }
    if (!w.always || divisor.reads) return 1;
    p->divisors[p->divides++] = divisor.at;
    return 0;
}

/* The term at *at, and *at after it. */
static struct term decode(struct plain *p, unsigned *at, struct where w)
{
    const uint16_t *f = p->table->fields;
    static const uint8_t ops[] = {[3] = PLUS, MINUS, REMAINDER, CHOICE, [12] = SAME, LESS, NOT, AND, OR};
    static const uint8_t parts[] = {[3] = 2, 2, 2, 3, [12] = 2, 2, 1, 2, 2};
    unsigned mark = f[(*at)++];
    switch (mark) {
    case 0: return (struct term){number(p, f[(*at)++]), 0, 0, 0};
    case 1: return (struct term){f[(*at)++], 0, 1, 0};
    case 2: return w.span > 1 ? (struct term){SUM, 1, 0, 0} : (struct term){NO, 0, 0, 0};
    case 10: return (struct term){YES, 0, 0, 0};
    case 11: return (struct term){NO, 0, 0, 0};
    }
    struct term t[3];
    int reads = 0;
    for (unsigned i = 0; i < parts[mark]; i++) {
        t[i] = decode(p, at, (struct where){w.span, w.always && !(mark == 6 && i)});
        reads |= t[i].reads;
    }
    int lacks = mark == 5 && can_lack(p, t[1], w);
    for (unsigned i = 0; i < 3; i++) t[i] = i < parts[mark] ? part(p, t[i], reads) : t[0];
    struct term made = mark > 14 ? joined(p, ops[mark], t[0], t[1]) : node(p, ops[mark], t[0], t[1], t[2]);
    made.lacks |= lacks;
    if (made.reads || made.varies || made.lacks) return made;
    return (struct term){number(p, get(p, p->v, made.at)), 0, 0, 0};
}

/* a condition with one part more */
static void add(struct plain *p, struct term *all, struct term one)
{
    *all = all->at == YES ? one : joined(p, AND, *all, one);
}

/* the condition at *at, part by part */
static void condition(struct plain *p, unsigned *at, struct row *r)
{
    if (p->table->fields[*at] == 15) {
        (*at)++;
        condition(p, at, r);
        condition(p, at, r);
        return;
    }
    struct term t = decode(p, at, (struct where){r->span, 1});
    add(p, t.reads ? &r->rest : &r->free, t);
}

static void decode_rows(struct plain *p, unsigned line, unsigned n, unsigned m, struct row *rows)
{
    for (unsigned i = 0; i < n; i++) {
        struct row *r = rows + i;
        unsigned start = p->table->starts[line + i], at = start + 3;
        *r = (struct row){.action = p->table->fields[start + 1], .span = p->table->fields[start + 2], .free.at = YES, .rest.at = YES, .mark.at = YES};
        r->in_condition.from = p->keeps;
        r->divisors.from = p->divides;
        condition(p, &at, r);
        r->in_condition.to = r->in_step.from = p->keeps;
        r->divisors.to = p->divides;
        r->data = decode(p, &at, (struct where){r->span, 0});
        r->lacks = r->free.lacks | r->rest.lacks | r->data.lacks | (r->divisors.from < r->divisors.to);
        for (unsigned k = 0; k < m; k++) {
            r->next[k] = decode(p, &at, (struct where){r->span, 0});
            r->next_reads |= r->next[k].reads;
            r->lacks |= r->next[k].lacks;
        }
        r->in_step.to = p->keeps;
        r->again = r->data.reads | r->next_reads;
    }
}

static void decode_marks(struct plain *p, unsigned line)
{
    unsigned at = p->table->starts[line] + 1;
    for (unsigned i = 0; i < p->rows; i++) {
        struct row *r = p->row + i;
        if (r->action) continue;
        p->internal = 1;
        if (!p->table->kind[8]) continue;
        r->in_mark.from = p->keeps;
        r->mark = decode(p, &at, (struct where){r->span, 0});
        r->in_mark.to = p->keeps;
        r->again |= r->mark.reads;
    }
}

/* finds the partners; a row looks again where its partner reads the sum value */
static void pair_rows(struct plain *p)
{
    for (unsigned i = 0; i < p->rows; i++)
        for (unsigned j = 0; j < p->spec_rows; j++) {
            struct row *r = p->row + i, *q = p->spec_row + j;
            if (r->action != q->action) continue;
            r->partner = q;
            q->partner = r;
            r->again |= q->again | q->rest.reads;
        }
}

static void decode_table(const struct table *t, struct plain *p)
{
    unsigned line = 0, at;
    p->table = t;
    p->made = p->keeps = p->divides = 0;
    p->leaves = YES + 1;
    p->v[NO] = 0;
    p->v[YES] = 1;
    p->params = t->kind[1], p->spec_params = t->kind[2], p->rows = t->kind[3], p->spec_rows = t->kind[4], p->internal = 0;
    for (unsigned i = 0; i < p->params; i++) p->size[i] = t->fields[t->starts[line++] + 1];
    for (unsigned i = 0; i < p->spec_params; i++) p->spec_size[i] = t->fields[t->starts[line++] + 1];
    decode_rows(p, line, p->rows, p->params, p->row);
    line += p->rows;
    decode_rows(p, line, p->spec_rows, p->spec_params, p->spec_row);
    line += p->spec_rows;
    at = t->starts[line++] + 1;
    p->invariant = decode(p, &at, (struct where){1, 0});
    at = t->starts[line++] + 1;
    for (unsigned i = 0; i < p->spec_params; i++) p->mapping[i] = decode(p, &at, (struct where){1, 0});
    at = t->starts[line++] + 1;
    p->measure = decode(p, &at, (struct where){1, 0});
    decode_marks(p, line);
    pair_rows(p);
    memcpy(p->w, p->v, p->leaves * sizeof *p->v);
    memcpy(p->x, p->v, p->leaves * sizeof *p->v);
}

/* ---- the criteria at the state in v, w being its mapped state ---- */

/* Criteria 3 to 6, 8 and 9 for a row of the implementation; *focus becomes 0 where it has a marked internal step. What doesn't read the sum
 * value is looked at for the first one that enables the row. */
static int row_passes(struct plain *p, const struct row *r, unsigned measure, int *focus)
{
    const struct row *q = r->partner;
    uint16_t *v = p->v, *w = p->w, *x = p->x, y[PARAMETERS];
    if (!divides(p, v, r->divisors)) return 0;
    int holds = get(p, v, r->free.at), first = 1;
    if (!holds && !r->rest.lacks && !r->mark.lacks) return 1;
    keep(p, v, r->in_condition);
    keep(p, v, r->in_mark);
    unsigned looks = r->rest.reads || r->again ? r->span : 1;
    for (unsigned e = 0; e < looks; e++) {
        v[SUM] = e;
        if (r->mark.lacks) get(p, v, r->mark.at);
        if (!get(p, v, r->rest.at) || !holds) continue;
        if (first) keep(p, v, r->in_step);
        if (first || r->next_reads) {
            for (unsigned k = 0; k < p->params; k++) {
                x[k] = get(p, v, r->next[k].at);
                if (x[k] >= p->size[k]) return 0;
            }
            if (!get(p, x, p->invariant.at)) return 0;
            for (unsigned k = 0; k < p->spec_params; k++) y[k] = get(p, x, p->mapping[k].at);
        }
        if (!r->action) {
            for (unsigned k = 0; k < p->spec_params; k++) if (y[k] != w[k]) return 0;
            if (get(p, v, r->mark.at)) {
                *focus = 0;
                if (get(p, x, p->measure.at) >= measure) return 0;
            }
        } else {
            if (!q) return 0;
            w[SUM] = e;
            if (first) {
                if (!get(p, w, q->free.at)) return 0;
                keep(p, w, q->in_condition);
                keep(p, w, q->in_step);
            }
            if ((first || q->rest.reads) && !get(p, w, q->rest.at)) return 0;
            if ((first || r->data.reads || q->data.reads) && get(p, v, r->data.at) != get(p, w, q->data.at)) return 0;
            if (first || r->next_reads || q->next_reads)
                for (unsigned k = 0; k < p->spec_params; k++) if (y[k] != get(p, w, q->next[k].at)) return 0;
        }
        if (!r->again && !r->rest.lacks) return 1;
        first = 0;
    }
    return 1;
}

/* criterion 7 for a row of the specification */
static int is_offered(struct plain *p, const struct row *r)
{
    const struct row *q = r->partner;
    if (!get(p, p->w, r->free.at)) return 1;
    keep(p, p->w, r->in_condition);
    int holds = q && get(p, p->v, q->free.at);
    if (holds) keep(p, p->v, q->in_condition);
    unsigned looks = r->rest.reads || (q && q->rest.reads) ? r->span : 1;
    for (unsigned e = 0; e < looks; e++) {
        p->v[SUM] = p->w[SUM] = e;
        if (get(p, p->w, r->rest.at) && (!holds || !get(p, p->v, q->rest.at))) return 0;
    }
    return 1;
}

/* criterion 10 for a row of the specification that can lack a value: what else looks at it leaves some out */
static void evaluate(struct plain *p, const struct row *r)
{
    uint16_t *w = p->w;
    if (!divides(p, w, r->divisors)) p->missing = 1;
    int holds = get(p, w, r->free.at), step_lacks = r->data.lacks;
    for (unsigned k = 0; k < p->spec_params; k++) step_lacks |= r->next[k].lacks;
    if (!r->rest.lacks && !(holds && step_lacks)) return;
    keep(p, w, r->in_condition);
    keep(p, w, r->in_step);
    unsigned looks = r->again || r->rest.reads ? r->span : 1;
    for (unsigned e = 0; e < looks; e++) {
        w[SUM] = e;
        if (!get(p, w, r->rest.at) || !holds) continue;
        if (r->data.lacks) get(p, w, r->data.at);
        for (unsigned k = 0; k < p->spec_params; k++) if (r->next[k].lacks) get(p, w, r->next[k].at);
    }
}

static int state_passes(struct plain *p)
{
    p->missing = 0;
    if (!get(p, p->v, p->invariant.at)) return !p->missing;
    for (unsigned i = 0; i < p->spec_params; i++) {
        p->w[i] = get(p, p->v, p->mapping[i].at);
        if (p->w[i] >= p->spec_size[i]) return 0;
    }
    unsigned measure = p->internal || p->measure.lacks ? get(p, p->v, p->measure.at) : 0;
    int focus = 1;
    for (unsigned i = 0; i < p->rows; i++) if (!row_passes(p, p->row + i, measure, &focus)) return 0;
    for (unsigned i = 0; focus && i < p->spec_rows; i++) if (!is_offered(p, p->spec_row + i)) return 0;
    for (unsigned i = 0; i < p->spec_rows; i++) if (p->spec_row[i].lacks) evaluate(p, p->spec_row + i);
    return !p->missing;
}

/* ---- the walk ---- */

/* The first of n states, from this one on, that doesn't pass, or the number after them. */
static size_t plain_walk(struct plain *p, size_t from, size_t n)
{
    size_t left = from;
    for (unsigned i = p->params; i-- > 0; left /= p->size[i]) p->v[i] = left % p->size[i];
    for (size_t s = from; s < from + n; s++) {
        if (!state_passes(p)) return s;
        for (unsigned i = p->params; i-- > 0;) {
            if (++p->v[i] < p->size[i]) break;
            p->v[i] = 0;
        }
    }
    return from + n;
}

/* Criterion 1, and which verdict an accepted design gets: 1 if the criterion fails. *state is the initial state's number. */
static unsigned plain_start(struct plain *p, size_t *state)
{
    const struct table *t = p->table;
    unsigned verdict = 0;
    *state = 0;
    p->missing = 0;
    for (unsigned i = 0; i < p->params; i++) {
        p->v[i] = t->fields[t->starts[i] + 2];
        *state = *state * p->size[i] + p->v[i];
    }
    if (!get(p, p->v, p->invariant.at)) return 1;
    for (unsigned i = 0; i < p->spec_params; i++) if (get(p, p->v, p->mapping[i].at) != t->fields[t->starts[p->params + i] + 2]) return 1;
    if (p->missing) return 1;
    for (unsigned i = 0; i < p->rows; i++) {
        const struct row *r = p->row + i;
        if (r->action || !get(p, p->v, r->free.at)) continue;
        keep(p, p->v, r->in_condition);
        for (unsigned e = 0; e < r->span; e++) {
            p->v[SUM] = e;
            if (get(p, p->v, r->rest.at)) verdict = 3;
        }
    }
    return verdict;
}

/* The verdict, and the state that fails. */
static struct plain_answer plain_check(const struct table *t)
{
    static struct plain p;
    struct plain_answer answer;
    decode_table(t, &p);
    answer.verdict = plain_start(&p, &answer.state);
    if (answer.verdict == 1) return answer;
    answer.state = plain_walk(&p, 0, t->states);
    if (answer.state < t->states) answer.verdict = 1;
    else answer.state = 0;
    return answer;
}
#endif
