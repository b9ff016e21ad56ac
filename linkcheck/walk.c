/* Stepping through a table. What holds in a state, where steps lead and what the criteria say of them are for the library to say. */
#define _POSIX_C_SOURCE 200809L
#include "walk.h"
#include "explain.h"
#include "input.h"
#include "names.h"

#include <stdlib.h>
#include <string.h>
#include <unistd.h>

/* More steps than this are counted, not shown. */
enum { MOST_SHOWN = 40 };

/* The sum values from the first to the last do the same in the state: a row with what it tells, and the criteria that are asked of it and
 * those that fail, bit c for criterion c. */
struct choice {
    const struct row *row;
    unsigned first, last;
    struct row_look look;
    unsigned asked, failing;
};

struct choices {
    struct choice list[MAX_ROWS * MAX_SPAN];
    size_t count;
};

struct walk {
    struct output *out;
    const struct table *t;
    unsigned at;           /* the number of the state */
    struct state s, ours;  /* the state, and where it is mapped to */
    bool judged;           /* the criteria are asked: the invariant holds, and nothing is without a value */
    bool focus;
    struct choices steps, our_steps;
    unsigned *past; /* the states before, on the heap */
    size_t length, room;
};

/* ---- what can be done ---- */

static bool leads_inside(const struct walk *w, const struct choice *c) {
    const struct state next = next_of(&c->look);
    return outside(&w->t->impl, &next) == w->t->impl.parameters;
}

/* The criteria that are asked of a step. Those that look at the next state are asked if that is inside the sizes; 8 and 9 if our row is
 * enabled. */
static unsigned asked_of(const struct walk *w, const struct choice *c) {
    const unsigned at_next = leads_inside(w, c) ? (c->row->action == INTERNAL ? 1u << KEEPS_MAPPING : 1u << NEXT) : 0;
    if (!w->judged) return 0;
    if (c->row->side == LOOK_SPECIFICATION) return w->focus ? 1u << OFFERED : 0;
    if (c->row->action == INTERNAL) {
        const bool is_marked = c->look.told[LOOK_MARK] == LOOK_HOLDS;
        return 1u << KEEPS_INVARIANT | at_next | (at_next && is_marked ? 1u << SMALLER_MEASURE : 0);
    }
    if (!criterion_holds(w->t, &w->s, ALLOWED, c->row->number, c->first)) return 1u << KEEPS_INVARIANT | 1u << ALLOWED;
    return 1u << KEEPS_INVARIANT | 1u << ALLOWED | 1u << DATA | at_next;
}

static void judge(const struct walk *w, struct choice *c) {
    c->asked = asked_of(w, c);
    for (unsigned criterion = KEEPS_INVARIANT; criterion <= NEXT; criterion++)
        if (c->asked & 1u << criterion && !criterion_holds(w->t, &w->s, criterion, c->row->number, c->first)) c->failing |= 1u << criterion;
}

static bool has_values(const struct process *p, const struct row_look *look) {
    const struct state next = next_of(look);
    return look->told[LOOK_DATA] != LOOK_NO_VALUE && is_whole(p, &next);
}

static bool is_same(const struct choice *a, const struct choice *b) {
    return a->row == b->row && a->last + 1 == b->first && memcmp(&a->look, &b->look, sizeof a->look) == 0 && a->asked == b->asked &&
           a->failing == b->failing;
}

static void add(struct choices *all, const struct choice *c) {
    struct choice *before = all->count ? &all->list[all->count - 1] : NULL;
    if (before && is_same(before, c)) before->last = c->last;
    else all->list[all->count++] = *c;
}

/* The steps of a process that are enabled and have their values. */
static void find_steps(const struct walk *w, const struct process *p, const struct state *s, struct choices *all) {
    all->count = 0;
    for (const struct row *row = p->row; row < p->row + p->rows; row++)
        for (unsigned sum = 0; sum < row->span; sum++) {
            struct choice c = {.row = row, .first = sum, .last = sum, .look = row_at(row, s, sum)};
            if (c.look.told[LOOK_CONDITION] != LOOK_HOLDS || !has_values(p, &c.look)) continue;
            judge(w, &c);
            add(all, &c);
        }
}

static void come_to(struct walk *w, unsigned state) {
    w->at = state;
    w->s = numbered_state(&w->t->impl, state);
    w->ours = mapped(w->t, &w->s);
    w->judged = invariant_holds(w->t, &w->s) && !first_missing(w->t, &w->s, ALL).part;
    w->focus = focus_point(&w->t->impl, &w->s);
    find_steps(w, &w->t->impl, &w->s, &w->steps);
    w->our_steps.count = 0;
    if (is_whole(&w->t->spec, &w->ours)) find_steps(w, &w->t->spec, &w->ours, &w->our_steps);
}

/* ---- showing it ---- */

static void show_missing(const struct walk *w, const struct missing *m) {
    print_missing(w->out, w->t, m);
}

static void show_invariant(const struct walk *w) {
    const struct missing m = missing_invariant(w->t, &w->s);
    const struct culprit c = culprit_in(w->t->invariant, 'p', point_at(w->t, &w->s, 0));
    put(w->out, "  invariant: ");
    if (m.part) show_missing(w, &m);
    else put(w->out, invariant_holds(w->t, &w->s) ? "holds" : "does not hold");
    if (!m.part) print_culprit(w->out, &c);
    put(w->out, "\n");
}

static void show_mapping(const struct walk *w) {
    const struct missing m = missing_mapped(w->t, &w->s);
    const struct failure f = {.criterion = MAPPED_VALUES, .state = w->at};
    put(w->out, "  mapping: ");
    if (m.part) show_missing(w, &m);
    else print_state(w->out, &w->t->spec, &w->ours);
    if (w->judged && !criterion_holds(w->t, &w->s, MAPPED_VALUES, 0, 0)) {
        const struct here h = here_of(w->t, &f);
        put(w->out, "; criterion 2 fails: ");
        print_difference(w->out, &h);
    }
    put(w->out, "\n");
}

static void show_measure(const struct walk *w) {
    const struct missing m = missing_measure(w->t, &w->s);
    put(w->out, "  measure: ");
    if (m.part) show_missing(w, &m);
    else print(w->out, "%u", measure(w->t, &w->s));
    put(w->out, w->focus ? "; a focus point\n" : "; no focus point, as a marked step is enabled\n");
}

/* Whether the criteria are asked here. */
static void show_values(const struct walk *w) {
    const struct missing m = first_missing(w->t, &w->s, ALL);
    if (w->judged) return;
    if (m.part) {
        put(w->out, "  criterion 10 fails, the others are not asked: ");
        show_missing(w, &m);
        put(w->out, "\n");
    } else {
        put(w->out, "  no criterion is asked here, as the invariant does not hold\n");
    }
}

/* Those that hold, as "criteria 3, 6, 9 hold". */
static void show_holding(const struct walk *w, const struct choice *c) {
    const unsigned holding = c->asked & ~c->failing;
    const char *before = holding & (holding - 1) ? "; criteria " : "; criterion ";
    for (unsigned criterion = KEEPS_INVARIANT; criterion <= NEXT; criterion++) {
        if (!(holding & 1u << criterion)) continue;
        print(w->out, "%s%u", before, criterion);
        before = ", ";
    }
    if (holding) put(w->out, holding & (holding - 1) ? " hold" : " holds");
}

static void show_failing(const struct walk *w, const struct choice *c) {
    for (unsigned criterion = KEEPS_INVARIANT; criterion <= NEXT; criterion++) {
        if (!(c->failing & 1u << criterion)) continue;
        const struct failure f = {.criterion = criterion, .state = w->at, .row = c->row->number, .sum = c->first};
        const struct here h = here_of(w->t, &f);
        print(w->out, "        criterion %u fails", criterion);
        if (c->first < c->last) print(w->out, ", for sum value %u", c->first);
        put(w->out, ": ");
        print_difference(w->out, &h);
        put(w->out, "\n");
    }
}

static void show_mark(const struct walk *w, const struct choice *c) {
    static const char *const words[] = {
        [LOOK_FAILS] = ", not marked", [LOOK_HOLDS] = ", marked", [LOOK_NO_TRUTH] = ", mark without a value",
    };
    if (c->row->action == INTERNAL) put(w->out, words[c->look.told[LOOK_MARK]]);
}

static void show_end(const struct walk *w, const struct choice *c) {
    const bool ours = c->row->side == LOOK_SPECIFICATION;
    const struct state next = next_of(&c->look);
    put(w->out, " -> ");
    if (ours) print_state(w->out, &w->t->spec, &next);
    else print_numbered(w->out, &w->t->impl, &next);
    if (!ours && !leads_inside(w, c)) put(w->out, ", outside the sizes");
}

static void show_step(const struct walk *w, const struct choice *c) {
    if (c->row->action == INTERNAL) put(w->out, "tau");
    else print(w->out, "a%u(%u)", c->row->action, c->look.told[LOOK_DATA]);
    show_end(w, c);
    print(w->out, "; row %u (line %zu), ", c->row->number, line_of(w->t, c->row->condition));
    if (c->first == c->last) print(w->out, "sum value %u", c->first);
    else print(w->out, "sum values %u to %u", c->first, c->last);
    show_mark(w, c);
    show_holding(w, c);
    put(w->out, "\n");
    show_failing(w, c);
}

/* The first that each row lacks. */
static void show_lacking(const struct walk *w, const struct process *p, const struct state *s) {
    for (const struct row *row = p->row; row < p->row + p->rows; row++) {
        struct missing m = {.part = NOTHING};
        for (unsigned sum = 0; sum < row->sums && !m.part; sum++) m = missing_in_row(p, row, s, sum);
        if (!m.part) continue;
        put(w->out, "        ");
        show_missing(w, &m);
        put(w->out, "\n");
    }
}

static void show_steps(const struct walk *w, const struct choices *all, bool numbered) {
    for (size_t i = 0; i < all->count && i < MOST_SHOWN; i++) {
        if (numbered) print(w->out, "  %4zu  ", i + 1);
        else put(w->out, "        ");
        show_step(w, &all->list[i]);
    }
    if (all->count == 0) put(w->out, "        none\n");
    if (all->count <= MOST_SHOWN) return;
    print(w->out, "        and %zu more%s\n", all->count - MOST_SHOWN, numbered ? ", which can be chosen too" : "");
}

static void show_ours(const struct walk *w) {
    if (!is_whole(&w->t->spec, &w->ours)) return;
    put(w->out, "the specification's steps at the mapped state ");
    print_state(w->out, &w->t->spec, &w->ours);
    put(w->out, !w->judged || w->focus ? "\n" : ", where criterion 7 is not asked\n");
    show_steps(w, &w->our_steps, false);
    show_lacking(w, &w->t->spec, &w->ours);
}

static void show_state(const struct walk *w) {
    const struct state start = initial_state(&w->t->impl);
    print_numbered(w->out, &w->t->impl, &w->s);
    put(w->out, same_state(&w->t->impl, &w->s, &start) ? ", the initial state\n" : "\n");
    show_invariant(w);
    show_mapping(w);
    show_measure(w);
    show_values(w);
    put(w->out, "the board's steps\n");
    show_steps(w, &w->steps, true);
    show_lacking(w, &w->t->impl, &w->s);
    show_ours(w);
}

/* ---- commands ---- */

static const char help[] = "a number  take that step\n"
                           "b         go back to the state before\n"
                           "g N       go to state N\n"
                           "s         start again at the initial state\n"
                           "an empty line shows the state again\n"
                           "q         quit, as the end of the input does\n";

/* Leaves the state for another, and keeps it. */
static void go(struct walk *w, unsigned state) {
    if (w->length == w->room) {
        const size_t room = w->room ? 2 * w->room : 64;
        unsigned *past = realloc(w->past, room * sizeof *past);
        if (!past) no_memory();
        w->past = past;
        w->room = room;
    }
    w->past[w->length++] = w->at;
    come_to(w, state);
    show_state(w);
}

static void go_back(struct walk *w) {
    if (w->length == 0) {
        put(w->out, "there is nothing to go back to\n");
        return;
    }
    come_to(w, w->past[--w->length]);
    show_state(w);
}

static void take_step(struct walk *w, unsigned long number) {
    if (number < 1 || number > w->steps.count) {
        print(w->out, "there is no step %lu\n", number);
        return;
    }
    const struct choice *c = &w->steps.list[number - 1];
    const struct state next = next_of(&c->look);
    if (leads_inside(w, c)) go(w, (unsigned)state_number(&w->t->impl, &next));
    else put(w->out, "that step leads outside the sizes, and is not taken\n");
}

static void go_to(struct walk *w, unsigned long number) {
    const unsigned long states = state_count(&w->t->impl);
    if (number < states) go(w, (unsigned)number);
    else print(w->out, "there is no state %lu: the last is %lu\n", number, states - 1);
}

static void start_again(struct walk *w) {
    const struct state start = initial_state(&w->t->impl);
    go(w, (unsigned)state_number(&w->t->impl, &start));
}

/* Digits alone, and not too many of them. */
static bool is_number(const char *words, unsigned long *number) {
    const size_t length = strspn(words, "0123456789");
    *number = strtoul(words, NULL, 10);
    return length > 0 && length < 9 && words[length] == 0;
}

/* Does what a line says. Gives whether to go on. */
static bool obey(struct walk *w, const char *line) {
    unsigned long number;
    if (strcmp(line, "q") == 0) return false;
    if (!*line) show_state(w);
    else if (strcmp(line, "b") == 0) go_back(w);
    else if (strcmp(line, "s") == 0) start_again(w);
    else if (strcmp(line, "?") == 0) put(w->out, help);
    else if (is_number(line, &number)) take_step(w, number);
    else if (line[0] == 'g' && is_number(line + 1 + strspn(line + 1, " "), &number)) go_to(w, number);
    else put(w->out, "no such command: ? tells which there are\n");
    return true;
}

/* ---- all of it ---- */

enum { LONGEST_COMMAND = 80 };

/* Reads a line without the blanks around it; what is too long is cut, and no command. Gives false at the end. */
static bool read_line(struct input *in, char *line) {
    size_t length = 0;
    bool some = false;
    char c;
    while (input_read(in, &c, 1) == 1) {
        some = true;
        if (c == '\n') break;
        if (c == '\t' || c == '\r') c = ' ';
        if (length < LONGEST_COMMAND && !(c == ' ' && length == 0)) line[length++] = c;
    }
    while (length > 0 && line[length - 1] == ' ') length--;
    line[length] = 0;
    return some && !in->error;
}

static int obey_all(struct walk *w) {
    struct input in = standard_input;
    const bool prompts = isatty(STDIN_FILENO);
    char line[LONGEST_COMMAND + 1];
    do {
        if (prompts) put(w->out, "> ");
        output_flush(w->out);
    } while (read_line(&in, line) && obey(w, line) && !w->out->error);
    return in.error ? complain(STATUS_UNREAD, "standard input", strerror(in.error)) : 0;
}

int walk(struct output *out, const char *name) {
    static struct text text;
    static struct table table;
    static struct walk w;
    const int error = text_read(&text, name);
    if (error) return complain(STATUS_UNREAD, name, strerror(error));
    const struct fault no_numbers = fault_of(&text, 0);
    if (text.slips) return turn_down(name, &no_numbers);
    const uint32_t number = hold_design(text.bytes, text.len, table.held.fields, table.held.starts, table.held.counts);
    struct fault f = table_read(&table, &text);
    if (number) f = fault_of(&text, number);
    if (number) return turn_down(name, &f);
    if (f.number || !table_hold(&table, text.bytes, text.len)) return complain(STATUS_UNREAD, name, other_rules);
    w.out = out;
    w.t = &table;
    const struct state start = initial_state(&table.impl);
    come_to(&w, (unsigned)state_number(&table.impl, &start));
    show_state(&w);
    const int status = obey_all(&w);
    free(w.past);
    return status;
}
