// Compares the checker with the reference over the texts of texts.h: check_design with buffers of five lengths, mark_design and
// unmark_design with two each, every byte of them; measure_design with slices of five lengths, every place. Writes lists of desk calls for
// desk_calls to CALLS, and what the reference answers to them, in desk_calls' words, to DUE.
//
//   fuzz COUNT SEED CALLS DUE TABLE..
//
// At a difference the text is left in target/differs.txt.
#include "../include/checker.h"
#include "reference_c/reference.h"
#include "texts.h"

static const size_t lengths[] = {0, 30, 31, 40, 100};
enum { LENGTHS = 5, BUFFER = 128, REPORT = CHECK_REPORT_BYTES };

static void fail(const char *what, const char *name) {
    fprintf(stderr, "fuzz: %s: %s\n", what, name);
    exit(1);
}

static FILE *opened(const char *path, const char *mode) {
    FILE *f = fopen(path, mode);
    if (!f) fail("cannot open", path);
    return f;
}

static void read_text(const char *path, struct text *t) {
    FILE *f = opened(path, "rb");
    t->len = fread(t->bytes, 1, ROOM, f);
    fclose(f);
}

// A call with text i and a buffer of so many bytes, or a slice of so many places.
struct call {
    const char *function;
    int i;
    const struct text *t;
    size_t room;
};

static void differ(const char *what, struct call c) {
    FILE *f = opened("target/differs.txt", "wb");
    fwrite(c.t->bytes, 1, c.t->len, f);
    fclose(f);
    fprintf(stderr, "fuzz: text %d, in target/differs.txt: %s with a length of %zu: %s\n", c.i, c.function, c.room, what);
    exit(1);
}

// The text's bytes as they are lent to a function, and whether they still are as they were.

static uint8_t lent[ROOM];

static const uint8_t *lend(const struct text *t) {
    memcpy(lent, t->bytes, t->len);
    return t->len ? lent : NULL;
}

static int is_changed(const struct text *t) { return memcmp(lent, t->bytes, t->len) != 0; }

// The one-call check.

// How many texts came to what: accepted as they are, failed by a criterion, turned down by a number, accepted after a first internal step.
enum { CRITERIA = 10, TURNED_DOWN = 7, AFTER_INTERNAL = 1 + CRITERIA + TURNED_DOWN, SORTS };

// A remainder by zero is its dividend at this level.
enum { HAS_ALL_VALUES = 4 };

struct counts {
    unsigned all[SORTS], marked[SORTS], dividing[SORTS], by_marks, by_numbers, by_zero[SORTS], from_focus_point;
};

static int sort_of(const uint8_t *report) {
    unsigned verdict, number;
    sscanf((const char *)report, "%6u%6u", &verdict, &number);
    if (verdict == CHECK_ACCEPTED_AFTER_INTERNAL) return AFTER_INTERNAL;
    return verdict == CHECK_ACCEPTED ? 0 : verdict == CHECK_FAILED ? (int)number : CRITERIA + (int)number;
}

// Whether the report is another one without the line of kind 8.
static int by_marks(const struct text *t, const uint8_t *report) {
    static struct text without;
    uint8_t other[REPORT];
    without = *t;
    drop_marks(&without);
    reference_check(without.bytes, without.len, other, REPORT);
    return memcmp(other, report, REPORT) != 0;
}

// Whether the report is another one where every term has a value. That level has no verdict 3: it is 0 there.
static int by_zero(const struct text *t, const uint8_t *report) {
    uint8_t other[REPORT];
    uint32_t verdict = reference_check_at(HAS_ALL_VALUES, t->bytes, t->len, other, REPORT);
    return sort_of(report) == AFTER_INTERNAL ? verdict != CHECK_ACCEPTED : memcmp(other, report, REPORT) != 0;
}

// Whether the initial state of a text with verdict 3 is a focus point: it is accepted as it is if it has its marked steps alone.
static int from_focus_point(const struct text *t) {
    static struct text marked;
    uint8_t report[REPORT];
    marked = *t;
    keep_marked_steps(&marked);
    return reference_check(marked.bytes, marked.len, report, REPORT) == CHECK_ACCEPTED;
}

static void count(struct counts *seen, const struct text *t, const uint8_t *report) {
    int sort = sort_of(report), is_design = sort <= CRITERIA || sort == AFTER_INTERNAL;
    seen->all[sort]++;
    if (has_marks(t)) {
        seen->marked[sort]++;
        seen->by_marks += is_design && by_marks(t, report);
        seen->from_focus_point += sort == AFTER_INTERNAL && from_focus_point(t);
    }
    if (!is_design) return;
    enum dividing dividing = dividing_of(t);
    seen->by_numbers += dividing == BY_NUMBERS;
    seen->dividing[sort] += dividing == BY_TERMS;
    seen->by_zero[sort] += by_zero(t, report);
}

static void print_counts(const char *what, const unsigned *seen) {
    unsigned texts = 0;
    for (int c = 0; c < SORTS; c++) texts += seen[c];
    printf("fuzz: %u %s: accepted %u, after a first internal step %u; failed by criterion", texts, what, seen[0], seen[AFTER_INTERNAL]);
    for (int c = 1; c <= CRITERIA; c++) printf(" %u", seen[c]);
    printf("; turned down by number");
    for (int c = CRITERIA + 1; c < AFTER_INTERNAL; c++) printf(" %u", seen[c]);
    printf("\n");
}

static void check_one(int i, const struct text *t, struct counts *seen) {
    for (int k = 0; k < LENGTHS; k++) {
        const struct call call = {"check_design", i, t, lengths[k]};
        uint8_t due[BUFFER], got[BUFFER];
        for (size_t b = 0; b < BUFFER; b++) due[b] = got[b] = (uint8_t)(b * 7 + i);
        uint32_t want = reference_check(t->bytes, t->len, due + 8, lengths[k]);
        uint32_t answer = check_design(lend(t), t->len, lengths[k] ? got + 8 : NULL, lengths[k]);
        if (answer != want) differ("another answer", call);
        if (memcmp(got, due, sizeof got)) differ("another buffer", call);
        if (is_changed(t)) differ("the text was written", call);
        if (lengths[k] == REPORT) count(seen, t, got + 8);
    }
}

// The two writers.

// No result has as many as MORE bytes more than its text.
enum { GUARD = 256, MORE = 256, NUMBERS = 17 };

typedef size_t writer(const uint8_t *text, size_t text_len, uint8_t *buffer, size_t buffer_len, uint32_t *number);

// How long a buffer is beside the result that a long one gets.
enum fit { EMPTY, SHORTER, ONE_SHORT, EXACT, LONGER, FITS };

// A writer, ours and the reference's, and what came of its calls.
struct both {
    const char *name;
    writer *ours, *reference;
    unsigned by_number[NUMBERS], copies, by_fields, by_fit[FITS];
};

// Both writers with a buffer of so many bytes, among bytes that they must leave alone. Gives the length of the result, and the number.
static size_t write_both(int i, const struct text *t, const struct both *s, size_t room, uint32_t *number) {
    static uint8_t due[GUARD + ROOM + 2 * MORE + GUARD], got[sizeof due];
    const struct call call = {s->name, i, t, room};
    const size_t area = GUARD + room + GUARD;
    uint32_t due_number = 0;
    for (size_t b = 0; b < area; b++) due[b] = got[b] = (uint8_t)(b * 7 + i);
    size_t due_length = s->reference(t->bytes, t->len, due + GUARD, room, &due_number);
    *number = UINT32_MAX;
    size_t length = s->ours(lend(t), t->len, room ? got + GUARD : NULL, room, number);
    if (*number != due_number) differ("another number", call);
    if (length != due_length) differ("another length", call);
    if (memcmp(got, due, area)) differ("another buffer", call);
    if (is_changed(t)) differ("the text was written", call);
    return length;
}

static size_t room_for(size_t result) {
    switch (rnd(5)) {
    case 0: return 0;
    case 1: return rnd(result + 1);
    case 2: return result ? result - 1 : 0;
    case 3: return result;
    default: return result + 1 + rnd(MORE);
    }
}

static enum fit fit_of(size_t room, size_t result) {
    if (room == 0) return EMPTY;
    if (room < result) return room + 1 == result ? ONE_SHORT : SHORTER;
    return room == result ? EXACT : LONGER;
}

// First with a buffer that is long enough, then with one of about the length of the result, or of the text if there is none.
static void write_one(int i, const struct text *t, struct both *s) {
    uint32_t number;
    const size_t result = write_both(i, t, s, t->len + MORE, &number), room = room_for(result ? result : t->len);
    s->by_number[number]++;
    s->by_fields += number == MARK_TOO_LONG;
    if (number == MARK_DONE) {
        s->copies += result == t->len;
        s->by_fit[fit_of(room, result)]++;
    }
    write_both(i, t, s, room, &number);
    s->by_number[number]++;
}

static void print_writer(const struct both *s) {
    unsigned calls = 0, results = 0;
    for (int n = 0; n < NUMBERS; n++) calls += s->by_number[n];
    for (int f = 0; f < FITS; f++) results += s->by_fit[f];
    printf("fuzz: %u calls of %s: done %u; turned down by number", calls, s->name, s->by_number[MARK_DONE]);
    for (int n = 1; n <= 7; n++) printf(" %u", s->by_number[n]);
    printf(", 15: %u, 16: %u; %u texts have too many fields for it\n", s->by_number[MARK_OTHER_FORMULA], s->by_number[MARK_TOO_LONG],
           s->by_fields);
    printf("fuzz: %u results of it, %u of them copies, with a buffer that is empty %u, shorter %u, one byte short %u, exact %u, longer %u\n",
           results, s->copies, s->by_fit[EMPTY], s->by_fit[SHORTER], s->by_fit[ONE_SHORT], s->by_fit[EXACT], s->by_fit[LONGER]);
}

// Measures.

// No slice has more than MOST_PLACES, and so many places stand before and after it.
enum { MOST_PLACES = 66000, PLACES_AROUND = 64, MOST_NUMBER = 19, STEPS = 3 };

// What is known of a text's measure: the number of states, or 0 if it is turned down; and if it has a loop, the state that our call names.
struct known {
    size_t states;
    uint32_t named;
};

static const unsigned over[STEPS] = {0, 10, 100};

// What came of all calls, and of those with a slice of just so many places as there are states.
struct measures {
    unsigned calls, filled, loops, by_number[MOST_NUMBER], exact, exact_filled, exact_over[STEPS], exact_loops, exact_18, exact_18_by_zero;
};

// Both with a slice of so many places, among places that they must leave alone. Which state is named on a loop is free, so the reference
// judges ours. Gives what is returned, the number, and the slice.
static uint32_t measure_both(int i, const struct text *t, size_t room, uint32_t *number, const uint16_t **slice) {
    static uint16_t before[PLACES_AROUND + MOST_PLACES + PLACES_AROUND], due[sizeof before / 2], got[sizeof before / 2];
    const struct call call = {"measure_design", i, t, room};
    const size_t area = PLACES_AROUND + room + PLACES_AROUND;
    uint32_t due_number = 0;
    for (size_t b = 0; b < area; b++) before[b] = due[b] = got[b] = (uint16_t)(65535 - b * 7 * i);
    uint32_t due_result = reference_measure(t->bytes, t->len, due + PLACES_AROUND, room, &due_number);
    *number = UINT32_MAX;
    uint32_t result = measure_design(lend(t), t->len, room ? got + PLACES_AROUND : NULL, room, number);
    if (result != due_result) differ("another result", call);
    if (result != REFERENCE_LOOP && *number != due_number) differ("another number", call);
    if (memcmp(got, due, area * sizeof *got)) differ("another slice", call);
    if (is_changed(t)) differ("the text was written", call);
    *slice = got + PLACES_AROUND;
    int has_design = result != REFERENCE_NO_MEASURE || *number > 7;
    if (has_design && !reference_judge(t->bytes, t->len, before + PLACES_AROUND, *slice, room, result, *number)) differ("judged wrong", call);
    return result;
}

static unsigned largest(const uint16_t *slice, size_t n) {
    unsigned most = 0;
    for (size_t k = 0; k < n; k++) most = slice[k] > most ? slice[k] : most;
    return most;
}

// Whether it is turned down by 18 where every term has a value.
static int has_18(const struct text *t, size_t states) {
    static uint16_t slice[MOST_PLACES];
    uint32_t number;
    return reference_measure_at(HAS_ALL_VALUES, t->bytes, t->len, slice, states, &number) == REFERENCE_NO_MEASURE;
}

// With a slice of just as many places as there are states, of more, of one less, of any less, and of none.
static struct known measure_one(int i, const struct text *t, struct measures *seen) {
    struct known known = {reference_states(t->bytes, t->len), 0};
    const size_t n = known.states, room[] = {n, n + 1 + rnd(300), n ? n - 1 : 0, rnd(n + 1), 0};
    for (int k = 0; k < 5; k++) {
        uint32_t number;
        const uint16_t *slice;
        uint32_t result = measure_both(i, t, room[k], &number, &slice);
        seen->calls++;
        seen->filled += result == REFERENCE_FILLED;
        seen->loops += result == REFERENCE_LOOP;
        if (result == REFERENCE_NO_MEASURE) seen->by_number[number]++;
        if (result == REFERENCE_LOOP) known.named = number;
        if (k || !n) continue;
        seen->exact++;
        seen->exact_filled += result == REFERENCE_FILLED;
        seen->exact_loops += result == REFERENCE_LOOP;
        seen->exact_18 += result == REFERENCE_NO_MEASURE;
        seen->exact_18_by_zero += result == REFERENCE_NO_MEASURE && !has_18(t, n);
        for (int s = 0; s < STEPS; s++) seen->exact_over[s] += result == REFERENCE_FILLED && largest(slice, n) > over[s];
    }
    return known;
}

static void print_measures(const struct measures *seen) {
    printf("fuzz: %u calls of measure_design: filled %u, loops %u; turned down by number", seen->calls, seen->filled, seen->loops);
    for (int n = 1; n <= 7; n++) printf(" %u", seen->by_number[n]);
    printf(", 17: %u, 18: %u\n", seen->by_number[17], seen->by_number[18]);
    printf("fuzz: %u of them with a place for each state: filled %u, the largest number", seen->exact, seen->exact_filled);
    for (int s = 0; s < STEPS; s++) printf(" over %u in %u,", over[s], seen->exact_over[s]);
    printf(" loops %u, 18: %u, of these by a missing value %u\n", seen->exact_loops, seen->exact_18, seen->exact_18_by_zero);
}

// Lists of desk calls.

// A desk of the reference, and what is known of what it has loaded.
struct list {
    struct reference_desk *desk;
    struct known known;
    FILE *calls, *due;
};

static void answered(const struct list *l, const char *call, uint32_t number) {
    if (number) fprintf(l->due, "turned down %u\n", number);
    else fprintf(l->due, "%s 0\n", call);
}

static void load(struct list *l, const struct text *t, struct known known) {
    uint32_t number = reference_load(l->desk, t->bytes, t->len);
    fprintf(l->calls, "load %zu\n", t->len);
    fwrite(t->bytes, 1, t->len, l->calls);
    fprintf(l->calls, "\n");
    answered(l, "load", number);
    if (!number) l->known = known;
}

static void advance(struct list *l, uint64_t n) {
    static const char *const words[] = {"open", "accepted", "failed", "turned down", "accepted3"};
    uint64_t number;
    uint32_t stands = reference_advance(l->desk, n, &number);
    fprintf(l->calls, "advance %llu\n", (unsigned long long)n);
    fprintf(l->due, "%s %llu\n", words[stands], (unsigned long long)number);
}

static void verdict(struct list *l) {
    uint16_t r[5];
    uint32_t number = reference_verdict(l->desk, r);
    fprintf(l->calls, "verdict\n");
    if (number) fprintf(l->due, "turned down %u\n", number);
    else fprintf(l->due, "verdict %u %u %u %u %u\n", r[0], r[1], r[2], r[3], r[4]);
}

// The state on a loop that is due is the one that measure_design names, which was judged: the desk searches in the same way.
static void measure(struct list *l) {
    static uint16_t slice[MOST_PLACES];
    const size_t states = l->known.states, rooms[] = {states, states, states + 1 + rnd(20), states ? states - 1 : 0, rnd(states + 1), 0};
    const size_t room = rooms[rnd(6)];
    uint32_t number;
    for (size_t k = 0; k < room; k++) slice[k] = UINT16_MAX;
    uint32_t result = reference_desk_measure(l->desk, slice, room, &number);
    fprintf(l->calls, "measure %zu\n", room);
    if (result == REFERENCE_NO_MEASURE) { fprintf(l->due, "turned down %u\n", number); return; }
    if (result == REFERENCE_LOOP) fprintf(l->due, "loop %u", l->known.named); else fprintf(l->due, "measure");
    for (size_t k = 0; k < room; k++) fprintf(l->due, " %u", slice[k]);
    fprintf(l->due, "\n");
}

static void drop(struct list *l) {
    fprintf(l->calls, "drop\n");
    answered(l, "drop", reference_drop(l->desk));
}

// Loads the text, calls the desk up to eleven times, and mostly drops it.
static void desk_one(struct list *l, const struct text *t, struct known known) {
    static const uint64_t steps[] = {1, 2, 3, 7, 50, 1, 2, 5, 1000, UINT64_MAX, 0};
    load(l, t, known);
    for (int k = rnd(12); k > 0; k--) {
        unsigned pick = rnd(rnd(4) ? 15 : 16);
        if (pick < 11) advance(l, steps[pick]);
        else if (pick < 13) verdict(l);
        else if (pick < 15) measure(l);
        else drop(l);
    }
    if (rnd(8)) drop(l);
}

static int is_accepted(const struct text *t) {
    uint8_t report[REPORT];
    return CHECK_IS_ACCEPTED(reference_check(t->bytes, t->len, report, REPORT));
}

// Tables of less than 8,000 bytes.
static void read_pool(struct pool *p, int tables, char **names) {
    for (int i = 0; i < tables && p->tables < POOL; i++) {
        struct text *t = &p->table[p->tables];
        read_text(names[i], t);
        if (t->len >= 8000) continue;
        if (is_accepted(t)) p->good[p->accepted++] = p->tables;
        if (has_marks(t) && is_accepted(t)) p->good_marked[p->marked++] = p->tables;
        p->tables++;
    }
    if (!p->marked) fail("no accepted table with marks among", names[0]);
}

int main(int n, char **words) {
    if (n < 6) fail("usage", "COUNT SEED CALLS DUE TABLE..");
    int texts = atoi(words[1]);
    seed = strtoull(words[2], NULL, 10) * 2 + 1;
    struct list list = {reference_desk(), {0, 0}, opened(words[3], "wb"), opened(words[4], "w")};
    static struct pool pool;
    static struct text t;
    static struct counts seen;
    static struct measures measures;
    static struct both writers[] = {
        {.name = "mark_design", .ours = mark_design, .reference = reference_mark},
        {.name = "unmark_design", .ours = unmark_design, .reference = reference_unmark},
    };
    read_pool(&pool, n - 5, words + 5);
    for (int i = 0; i < texts; i++) {
        make_text(&t, &pool);
        check_one(i, &t, &seen);
        for (int k = 0; k < 2; k++) write_one(i, &t, &writers[k]);
        desk_one(&list, &t, measure_one(i, &t, &measures));
    }
    reference_free(list.desk);
    if (fclose(list.calls) || fclose(list.due)) fail("cannot write", words[3]);
    printf("fuzz: %d texts, %d buffers each: no difference\n", texts, LENGTHS);
    print_counts("texts", seen.all);
    print_counts("of them with marks", seen.marked);
    printf("fuzz: %u of these get another report without the line of kind 8\n", seen.by_marks);
    printf("fuzz: %u of these are accepted after a first internal step, though no step of the initial state is marked\n", seen.from_focus_point);
    print_counts("of the designs divide by what can be 0", seen.dividing);
    print_counts("of them have another report where a remainder by zero is its dividend", seen.by_zero);
    printf("fuzz: %u designs more divide, by numbers above 0 alone\n", seen.by_numbers);
    for (int k = 0; k < 2; k++) print_writer(&writers[k]);
    print_measures(&measures);
}
