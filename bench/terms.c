// Times the evaluator (crates/eval, as compiled from its proved source) against the same recursion in plain C, on sets of terms. The two
// take turns in one run; of the turns the quickest counts. Prints nanoseconds a term and the ratio, evaluator to C.
#include <stdio.h>
#include <stdlib.h>
#include <string.h>
#include <time.h>

#include "plain.h"

uint16_t bench_value(const uint16_t *desk, size_t at, const uint16_t *params, uint16_t sum);
bool bench_formula(const uint16_t *desk, size_t at, const uint16_t *params, uint16_t sum);

enum { MAX_FIELDS = 4096, MAX_PARAMETERS = 8, MAX_TERMS = 256, TURNS = 15, TURN_TERMS = 400000 };

static uint16_t desk[MAX_FIELDS];
static size_t fields, starts[MAX_TERMS], terms;
static bool is_formula[MAX_TERMS];

static uint64_t seed = 88172645463325252ull;

static uint32_t any(uint32_t below) {
    seed ^= seed << 13;
    seed ^= seed >> 7;
    seed ^= seed << 17;
    return (uint32_t)(seed >> 11) % below;
}

static void put(uint16_t field) { desk[fields++] = field; }

static void put_formula(int depth);

// A value of about a depth, every mark as likely; an eighth of the time a leaf.
static void put_value(int depth) {
    uint16_t mark = depth <= 1 || any(8) == 0 ? any(3) : 3 + any(4);
    put(mark);
    if (mark == 0) put(any(65536));
    else if (mark == 1) put(any(4));
    else if (mark == 6) { put_formula(depth - 1); put_value(depth - 1); put_value(depth - 1); }
    else if (mark > 2) { put_value(depth - 1); put_value(depth - 1); }
}

static void put_formula(int depth) {
    uint16_t mark = depth <= 1 ? 10 + any(2) : 12 + any(5);
    put(mark);
    if (mark == 12 || mark == 13) { put_value(depth - 1); put_value(depth - 1); }
    else if (mark == 14) put_formula(depth - 1);
    else if (mark > 14) { put_formula(depth - 1); put_formula(depth - 1); }
}

static void put_leaf(void) { put_value(1); }

static void put_equal(void) { put(12); put(1); put(any(4)); put(0); put(any(4)); }

// Conditions, data and next values as rows have them.
static void put_row_term(void) {
    switch (any(8)) {
    case 0: case 1: put_equal(); break;
    case 2: put(15); put_equal(); put_equal(); break;
    case 3: put(1); put(any(4)); break;
    case 4: put(0); put(any(16)); break;
    case 5: put(2); break;
    case 6: put(3); put(1); put(any(4)); put(0); put(1); break;
    case 7: put(6); put_equal(); put(1); put(any(4)); put(0); put(any(4)); break;
    }
}

// The terms of 01's pump table: conditions, data, next values, mapping and measure.
static void put_pump_term(void) {
    static const uint16_t table[][8] = {{12, 1, 0, 0, 0}, {12, 1, 0, 0, 1}, {12, 1, 0, 0, 2}, {2}, {0, 1}, {0, 0}, {0, 2}, {1, 1}, {10}, {6, 12, 1, 0, 0, 0, 0, 0}, {6, 12, 1, 0, 0, 1, 0, 1}};
    static const int lengths[] = {5, 5, 5, 1, 2, 2, 2, 2, 1, 8, 8};
    uint32_t k = any(11);
    for (int i = 0; i < lengths[k]; i++) put(table[k][i]);
    if (k == 9) { put(0); put(1); }
    if (k == 10) { put(0); put(0); }
}

static void put_depth2(void) { put_value(2); }
static void put_depth4(void) { put_value(4); }
static void put_depth6(void) { put_value(6); }

static void put_and_tree_of(int leaves) {
    if (leaves == 1) { put(10); return; }
    put(15);
    put_and_tree_of(leaves / 2);
    put_and_tree_of(leaves - leaves / 2);
}
static void put_and_tree(void) { put_and_tree_of(64); }

static void fill(void (*put_term)(void)) {
    memset(desk, 0, sizeof desk);
    fields = terms = 0;
    while (terms < MAX_TERMS) {
        size_t start = fields;
        if (MAX_FIELDS - 1600 < start) break;
        put_term();
        if (MAX_FIELDS - 2 < fields) { fields = start; break; }
        is_formula[terms] = desk[start] >= 10;
        starts[terms++] = start;
    }
}

static double seconds(void) {
    struct timespec t;
    clock_gettime(CLOCK_PROCESS_CPUTIME_ID, &t);
    return t.tv_sec + t.tv_nsec * 1e-9;
}

typedef uint16_t value_of(const uint16_t *, size_t, const uint16_t *, uint16_t);
typedef bool formula_of(const uint16_t *, size_t, const uint16_t *, uint16_t);

// One turn: all terms again and again, for ever other parameter and sum values. Gives the seconds; adds the values up.
static double turn(value_of *value, formula_of *formula, uint64_t *sum) {
    uint16_t params[MAX_PARAMETERS] = {7, 3, 65535, 2};
    int rounds = TURN_TERMS / (int)terms + 1;
    double before = seconds();
    for (int r = 0; r < rounds; r++) {
        params[0] = r & 3;
        params[1] = r & 15;
        for (size_t i = 0; i < terms; i++)
            *sum += is_formula[i] ? formula(desk, starts[i], params, r & 255) : value(desk, starts[i], params, r & 255);
    }
    return (seconds() - before) / ((double)rounds * terms);
}

int main(void) {
    static const struct { const char *name; void (*put_term)(void); } sets[] = {
        {"values of depth 2", put_depth2}, {"values of depth 4", put_depth4}, {"values of depth 6", put_depth6},
        {"terms of rows", put_row_term}, {"terms of the pump table", put_pump_term}, {"leaves", put_leaf},
        {"12 1 i 0 n", put_equal}, {"15 over 64 times 10", put_and_tree}};
    int differ = 0;
    printf("%-26s %8s %10s %10s %7s\n", "terms", "fields", "eval ns", "C ns", "ratio");
    for (size_t k = 0; k < sizeof sets / sizeof *sets; k++) {
        fill(sets[k].put_term);
        double best_eval = 1, best_plain = 1;
        uint64_t eval_sum = 0, plain_sum = 0;
        for (int t = 0; t < TURNS; t++) {
            double e = turn(bench_value, bench_formula, &eval_sum), c = turn(plain_value, plain_formula, &plain_sum);
            if (e < best_eval) best_eval = e;
            if (c < best_plain) best_plain = c;
        }
        if (eval_sum != plain_sum) differ = 1;
        printf("%-26s %8.1f %10.1f %10.1f %7.2f%s\n", sets[k].name, (double)fields / terms, best_eval * 1e9, best_plain * 1e9, best_eval / best_plain, eval_sum == plain_sum ? "" : "  DIFFER");
    }
    return differ;
}
