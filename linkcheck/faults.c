/* The places of a fault, in words. A place is a line, and mostly a field in it; its words come from a look at the text for that one number,
 * and there are none if the line shows nothing by linkcheck's own reading. */
#define _POSIX_C_SOURCE 200809L
#include "faults.h"
#include "names.h"
#include "../include/checker.h"
#include "terms.h"

#include <stdlib.h>
#include <string.h>

enum { MOST_LISTED = 100, MOST_DESCRIBED = 20, MOST_RANGES = 10, MOST_QUOTED = 40, LONG_READ = 120 };

struct fault fault_of(const struct text *t, unsigned number) {
    return (struct fault){.number = number, .text = t};
}

const char *fault_word(const struct fault *f) {
    static const char *const words[] = {
        "typed numbers", "length of the text", "columns", "number of fields", "kinds of lines", "sizes, initial values, spans", "terms",
        "actions", [MARK_OTHER_FORMULA] = "marks", [MARK_TOO_LONG] = "length of the result",
    };
    if (f->number == 0 && (!f->text || !f->text->slips)) return "";
    if (f->number == MEASURE_CRITERION_3) return f->criterion == 10 ? "criterion 10" : "criterion 3";
    return f->number < sizeof words / sizeof *words && words[f->number] ? words[f->number] : "";
}

/* ---- a look at a text ---- */

struct look {
    const struct text *text;
    size_t lines, first; /* how many there are, and the first that shows the fault, which has advice for all */
    uint32_t start[MAX_TEXT + 2];          /* where a line starts, by its number less 1; that of the next is one after its byte 10 */
    uint16_t field[MAX_TEXT / COLUMNS + 1]; /* of a text that is whole fields */
};

static const uint8_t *line_bytes(const struct look *k, size_t line) {
    return k->text->bytes + k->start[line - 1];
}

static size_t line_length(const struct look *k, size_t line) {
    return k->start[line] - 1 - k->start[line - 1];
}

/* Of a text that is whole fields: how many fields come before a line, how many it has, and these. */
static size_t fields_before(const struct look *k, size_t line) {
    return (k->start[line - 1] - (line - 1)) / COLUMNS;
}

static size_t field_count(const struct look *k, size_t line) {
    return line_length(k, line) / COLUMNS;
}

static const uint16_t *fields_of(const struct look *k, size_t line) {
    return k->field + fields_before(k, line);
}

static unsigned kind_of(const struct look *k, size_t line) {
    return fields_of(k, line)[0];
}

/* How many of the lines up to this one are of a kind. */
static unsigned count_kind(const struct look *k, unsigned kind, size_t line) {
    unsigned count = 0;
    for (size_t i = 1; i <= line; i++) count += kind_of(k, i) == kind;
    return count;
}

static bool is_row(unsigned kind) {
    return kind == IMPL_ROW || kind == SPEC_ROW;
}

static void find_lines(struct look *k) {
    const struct text *t = k->text;
    size_t at = 0;
    for (k->lines = 0; at < t->len; k->lines++) {
        const uint8_t *end = memchr(t->bytes + at, '\n', t->len - at);
        k->start[k->lines] = (uint32_t)at;
        at = end ? (size_t)(end - t->bytes) + 1 : t->len + 1;
    }
    k->start[k->lines] = (uint32_t)at;
}

/* Columns that hold no number come out as any. */
static void find_fields(struct look *k) {
    size_t fields = 0;
    for (size_t line = 1; line <= k->lines; line++)
        for (size_t i = 0; i < field_count(k, line); i++) {
            const uint8_t *column = line_bytes(k, line) + i * COLUMNS;
            unsigned number = 0;
            for (int c = 0; c < COLUMNS; c++) number = 10 * number + (column[c] == ' ' ? 0 : column[c] - '0');
            k->field[fields++] = (uint16_t)number;
        }
}

/* ---- a place ---- */

struct place {
    size_t line;   /* of the file; 0 if the fault is no line's */
    size_t column; /* in that line; 0 if it is the whole line */
    struct output words;
    struct output quoted; /* what stands there */
    struct output read;   /* the terms before it, in infix */
    struct output due;    /* what should be there */
};

static struct place new_place(size_t line) {
    const struct output none = {.file = KEPT};
    return (struct place){.line = line, .words = none, .quoted = none, .read = none, .due = none};
}

/* Nothing of a place is written unless all of it is there. */
static struct place whole_place(struct place p) {
    if (p.words.error || p.quoted.error || p.read.error || p.due.error) no_memory();
    return p;
}

static void free_place(struct place *p) {
    free(p->words.bytes);
    free(p->quoted.bytes);
    free(p->read.bytes);
    free(p->due.bytes);
}

static void put_kept(struct output *out, const struct output *kept) {
    put_bytes(out, kept->bytes, kept->length);
}

/* Bytes as they may be printed: a tab as \t, others that are no characters of ASCII by their number. */
static void put_quoted(struct output *out, const uint8_t *bytes, size_t length) {
    for (size_t i = 0; i < length && i < MOST_QUOTED; i++) {
        if (bytes[i] == '\t') put(out, "\\t");
        else if (bytes[i] == '\\') put(out, "\\\\");
        else if (bytes[i] < ' ' || bytes[i] > '~') print(out, "\\x%02x", bytes[i]);
        else put_bytes(out, &bytes[i], 1);
    }
    if (length > MOST_QUOTED) put(out, "..");
}

/* What stands at a column of the line, in words between backquotes. */
static void quote(struct place *p, size_t column, const uint8_t *bytes, size_t length) {
    p->column = column;
    put_quoted(&p->quoted, bytes, length);
    put(&p->words, "`");
    put_kept(&p->words, &p->quoted);
    put(&p->words, "`");
}

/* The place is this field, counted from 0. */
static void at_field(struct place *p, const struct look *k, size_t line, size_t field) {
    p->column = k->text->typed ? k->text->column[fields_before(k, line) + field] : field * COLUMNS + 1;
    print(&p->quoted, "%u", fields_of(k, line)[field]);
}

/* And in words: where it is, and what. */
static void put_field(struct place *p, const struct look *k, size_t line, size_t field) {
    at_field(p, k, line, field);
    print(&p->words, "field %zu (", field + 1);
    if (k->text->typed) print(&p->words, "column %zu", p->column);
    else print(&p->words, "columns %zu to %zu", p->column, p->column + COLUMNS - 1);
    print(&p->words, "), `%u`", fields_of(k, line)[field]);
}

static const char *s(size_t count) {
    return count == 1 ? "" : "s";
}

/* ---- 2: columns ---- */

static bool is_digit(uint8_t c) {
    return c >= '0' && c <= '9';
}

/* Digits with other blanks between them than columns ask for, or a comment: a line as it is typed. */
static bool looks_typed(const uint8_t *bytes, size_t length) {
    size_t i = 0;
    while (i < length && bytes[i] && (is_digit(bytes[i]) || strchr(" \t\r\v\f", bytes[i]))) i++;
    return i == length || bytes[i] == '#';
}

static void advise(struct place *p, const struct look *k, size_t line) {
    if (line == k->first && looks_typed(line_bytes(k, line), line_length(k, line)))
        put(&p->words, "; --typed takes any blanks, and comments");
}

static size_t count_carriage_returns(const struct look *k) {
    size_t count = 0;
    for (size_t line = 1; line <= k->lines; line++) count += line_length(k, line) && line_bytes(k, line)[line_length(k, line) - 1] == '\r';
    return count;
}

static void tell_carriage_return(struct place *p, const struct look *k, size_t line) {
    const size_t column = line_length(k, line), all = count_carriage_returns(k);
    p->column = column;
    put(&p->quoted, "\\x0d");
    print(&p->words, "byte 13 in column %zu (the line ends in CR LF?)", column);
    if (line != k->first) return;
    if (all == k->lines && all > 1) print(&p->words, ", as in all %zu lines", all);
    else if (all > 1) print(&p->words, ", as in %zu of %zu lines", all, k->lines);
    put(&p->words, "; --typed takes such lines");
}

static unsigned long value_of(const uint8_t *digits, size_t count) {
    unsigned long value = 0;
    for (size_t i = 0; i < count; i++) value = 10 * value + (digits[i] - '0');
    return value;
}

/* What is wrong with six columns that hold no number, the first of which is this one. */
static void tell_columns(struct place *p, const struct look *k, size_t line, size_t column) {
    const uint8_t *field = line_bytes(k, line) + column - 1;
    size_t odd = 0, digit = 0;
    while (odd < COLUMNS && (field[odd] == ' ' || is_digit(field[odd]))) odd++;
    while (digit < COLUMNS && field[digit] == ' ') digit++;
    print(&p->words, "columns %zu to %zu are ", column, column + COLUMNS - 1);
    if (digit == COLUMNS) {
        p->column = column;
        put(&p->words, "blank, and hold no number");
        advise(p, k, line);
        return;
    }
    quote(p, column, field, COLUMNS);
    if (odd < COLUMNS) {
        p->column = column + odd;
        print(&p->words, ": column %zu has ", p->column);
        if (field[odd] == '\t') put(&p->words, "a tab; --typed takes tabs");
        else if (field[odd] == '\r') put(&p->words, "byte 13 (a line end in CR LF?)");
        else put(&p->words, "neither a digit nor a blank");
    } else if (memchr(field + digit, ' ', COLUMNS - digit)) {
        put(&p->words, ": there are blanks after a digit");
        advise(p, k, line);
    } else {
        put(&p->words, field[digit] == '0' ? ": the number has a leading zero" : ": the number is above 65535");
        if (field[digit] == '0' && value_of(field + digit, COLUMNS - digit) <= UINT16_MAX) put(&p->words, ", which --typed takes");
    }
}

static bool holds_number(const uint8_t *field) {
    size_t digit = 0, end;
    while (digit < COLUMNS && field[digit] == ' ') digit++;
    for (end = digit; end < COLUMNS && is_digit(field[end]);) end++;
    if (digit == COLUMNS || end < COLUMNS || (field[digit] == '0' && digit < COLUMNS - 1)) return false;
    return value_of(field + digit, COLUMNS - digit) <= UINT16_MAX;
}

static void tell_rest(struct place *p, const struct look *k, size_t line) {
    const size_t length = line_length(k, line);
    print(&p->words, "%zu byte%s, ", length, s(length));
    quote(p, length / COLUMNS * COLUMNS + 1, line_bytes(k, line), length);
    print(&p->words, ", %s not whole fields of six columns", length == 1 ? "is" : "are");
    advise(p, k, line);
}

static void tell_2(struct place *p, const struct look *k, size_t line) {
    const uint8_t *bytes = line_bytes(k, line);
    const size_t length = line_length(k, line);
    size_t i = 0;
    if (length == 0) {
        put(&p->words, "the line is empty");
        return;
    }
    while (i < length / COLUMNS && holds_number(bytes + i * COLUMNS)) i++;
    if (bytes[length - 1] == '\r') tell_carriage_return(p, k, line);
    else if (length % COLUMNS && looks_typed(bytes, length)) tell_rest(p, k, line);
    else if (i < length / COLUMNS) tell_columns(p, k, line, i * COLUMNS + 1);
    else if (length % COLUMNS) tell_rest(p, k, line);
    else if (line == k->lines && k->start[line] > k->text->len) put(&p->words, "the last line has no byte 10 at its end");
}

/* ---- 3: numbers of fields ---- */

static void tell_3(struct place *p, const struct look *k, size_t line) {
    const size_t count = field_count(k, line), sum = fields_before(k, line) + count;
    if (count > MAX_LINE_FIELDS) print(&p->words, "%zu fields, at most %d in a line", count, MAX_LINE_FIELDS);
    else if (sum > MAX_FIELDS) print(&p->words, "%zu fields up to here, at most %d in all", sum, MAX_FIELDS);
}

/* ---- 4: kinds ---- */

static const struct { unsigned least, most; } lines_of[KINDS + 1] = {
    [IMPL_PARAMETER] = {1, MAX_PARAMETERS}, [SPEC_PARAMETER] = {1, MAX_PARAMETERS},
    [IMPL_ROW] = {0, MAX_ROWS}, [SPEC_ROW] = {0, MAX_ROWS},
    [INVARIANT] = {1, 1}, [MAPPING] = {1, 1}, [MEASURE] = {1, 1}, [MARKS] = {0, 1},
};

static void tell_4(struct place *p, const struct look *k, size_t line) {
    const unsigned kind = kind_of(k, line);
    const size_t fields = field_count(k, line);
    const unsigned last = line > 1 ? kind_of(k, line - 1) : 0;
    if (kind < 1 || kind > KINDS) print(&p->words, "kind %u is unknown", kind);
    else if (last <= KINDS && kind < last) print(&p->words, "kind %u comes after kind %u", kind, last);
    else if (count_kind(k, kind, line) > lines_of[kind].most) print(&p->words, "more than %u of kind %u", lines_of[kind].most, kind);
    else if (kind <= SPEC_PARAMETER && fields != 3) print(&p->words, "a line of kind %u has three fields, not %zu", kind, fields);
    else if (is_row(kind) && fields < 3) print(&p->words, "a row has at least three fields, not %zu", fields);
    if (p->words.length) at_field(p, k, line, 0);
}

/* The kinds that have no line, in words; nothing if there are none. */
static void tell_no_lines(struct output *out, const struct look *k) {
    unsigned missing[KINDS + 1], count = 0;
    for (unsigned kind = 1; kind <= KINDS; kind++)
        if (lines_of[kind].least && count_kind(k, kind, k->lines) == 0) missing[count++] = kind;
    if (count == 0) return;
    print(out, "no line of kind%s %u", s(count), missing[0]);
    for (unsigned i = 1; i < count; i++) print(out, "%s%u", i + 1 < count ? ", " : " and ", missing[i]);
}

/* ---- 5: numbers ---- */

/* The product of the sizes of kind 1 up to a line; over MAX_STATES it is any number that is. */
static unsigned long product_up_to(const struct look *k, size_t line) {
    unsigned long product = 1;
    for (size_t i = 1; i <= line; i++)
        if (kind_of(k, i) == IMPL_PARAMETER && (product <= MAX_STATES || fields_of(k, i)[1] == 0)) product *= fields_of(k, i)[1];
    return product;
}

static void tell_5(struct place *p, const struct look *k, size_t line) {
    const unsigned kind = kind_of(k, line);
    const uint16_t *field = fields_of(k, line);
    if (kind > SPEC_ROW) return;
    if (is_row(kind)) {
        if (field[2] >= 1 && field[2] <= MAX_SPAN) return;
        print(&p->words, "the span is %u, not 1 to %d", field[2], MAX_SPAN);
        at_field(p, k, line, 2);
    } else if (field[1] == 0) {
        put(&p->words, "the size is 0");
        at_field(p, k, line, 1);
    } else if (field[2] >= field[1]) {
        print(&p->words, "the initial value %u is not below the size %u", field[2], field[1]);
        at_field(p, k, line, 2);
    } else if (kind == IMPL_PARAMETER && product_up_to(k, line) > MAX_STATES) {
        print(&p->words, "the product of the sizes is %lu up to here, at most %d", product_up_to(k, line), MAX_STATES);
        at_field(p, k, line, 1);
    }
}

/* ---- 6: terms ---- */

enum wrong { FINE, ENDS, NO_MARK, NO_PARAMETER, NO_SUM_VALUE, TOO_DEEP };

/* Terms that are read field by field until something is wrong, and what is due there: the term itself, or a part of a mark. */
struct reading {
    const uint16_t *at, *end;
    unsigned parameters;
    bool has_sum;
    enum wrong wrong;
    bool formula;
    unsigned within, part; /* part 0 is the term itself */
};

static bool stop(struct reading *r, enum wrong wrong, bool formula, unsigned within, unsigned part) {
    r->wrong = wrong;
    r->formula = formula;
    r->within = within;
    r->part = part;
    return false;
}

/* Whether part `part` of a mark is a formula. */
static bool part_is_formula(unsigned mark, unsigned part) {
    return mark == CHOICE ? part == 1 : mark >= NOT;
}

static unsigned part_count(unsigned mark) {
    if (mark == CHOICE) return 3;
    if (mark == NOT) return 1;
    return mark <= SUM_VALUE || mark == TRUE || mark == FALSE ? 0 : 2;
}

static bool read_term(struct reading *r, bool formula, int depth, unsigned within, unsigned part) {
    if (r->at == r->end) return stop(r, ENDS, formula, within, part);
    if (depth == 0) return stop(r, TOO_DEEP, formula, within, part);
    const unsigned mark = *r->at;
    if (formula ? mark < TRUE || mark > OR : mark > CHOICE) return stop(r, NO_MARK, formula, within, part);
    if (mark == SUM_VALUE && !r->has_sum) return stop(r, NO_SUM_VALUE, formula, within, part);
    r->at++;
    if (mark == NUMBER || mark == PARAMETER) {
        if (r->at == r->end) return stop(r, ENDS, false, mark, 1);
        if (mark == PARAMETER && *r->at >= r->parameters) return stop(r, NO_PARAMETER, false, mark, 1);
        r->at++;
    }
    for (unsigned i = 1; i <= part_count(mark); i++)
        if (!read_term(r, part_is_formula(mark, i), depth - 1, mark, i)) return false;
    return true;
}

/* Which part of a line is read, in words: "the next value of p1". */
struct part {
    bool formula;
    char letter;       /* of the parameters that it reads */
    const char *name;  /* with # for the number */
    const char *read;  /* what comes before the term in infix, likewise */
    unsigned number;
};

static void put_numbered(struct output *out, const char *words, unsigned number) {
    const char *place = strchr(words, '#');
    put_bytes(out, words, place ? (size_t)(place - words) : strlen(words));
    if (place) print(out, "%u%s", number, place + 1);
}

/* The row of mark i of kind 8, both counted from 0 and from 1; 0 if there are fewer internal rows. */
static unsigned marked_row(const struct look *k, unsigned mark) {
    unsigned row = 0;
    for (size_t line = 1; line <= k->lines; line++) {
        if (kind_of(k, line) != IMPL_ROW) continue;
        row++;
        if (fields_of(k, line)[1] == INTERNAL && mark-- == 0) return row;
    }
    return 0;
}

/* Part i of a line, counted from 0. Gives whether there is one. */
static bool part_of(const struct look *k, unsigned kind, unsigned i, struct part *part) {
    const bool ours = kind == SPEC_ROW;
    const unsigned parameters = count_kind(k, ours || kind == MAPPING ? SPEC_PARAMETER : IMPL_PARAMETER, k->lines);
    *part = (struct part){.letter = ours ? 'q' : 'p', .number = i};
    switch (kind) {
    case IMPL_ROW: case SPEC_ROW:
        part->formula = i == 0;
        part->name = i == 0 ? "the condition" : i == 1 ? "the data number" : ours ? "the next value of q#" : "the next value of p#";
        part->read = i == 0 ? "condition " : i == 1 ? "data " : ours ? "q# := " : "p# := ";
        if (i >= 2) part->number = i - 2;
        return i < parameters + 2;
    case INVARIANT:
        part->formula = true;
        part->name = "the invariant";
        part->read = "invariant ";
        return i < 1;
    case MAPPING:
        part->name = "the value of q#";
        part->read = "q# = ";
        return i < parameters;
    case MEASURE:
        part->name = "the measure";
        part->read = "measure ";
        return i < 1;
    default:
        part->formula = true;
        part->name = "the mark of row #";
        part->read = "row # marked when ";
        part->number = marked_row(k, i);
        return part->number != 0;
    }
}

/* What is due where reading stopped. */
static void put_due(struct output *out, const struct reading *r, const struct part *part) {
    static const char *const names[] = {
        [SUM] = "sum", [DIFFERENCE] = "difference", [REMAINDER] = "remainder", [CHOICE] = "choice", [EQUAL] = "equal", [LESS] = "less",
        [NOT] = "not", [AND] = "and", [OR] = "or",
    };
    if (r->part > 0) {
        const unsigned values_before = r->within == CHOICE ? r->part - 1 : r->part;
        if (r->within == NUMBER) put(out, "the number after `0`");
        else if (r->within == PARAMETER) put(out, "the parameter after `1`");
        else if (part_count(r->within) == 1 || (r->within == CHOICE && r->part == 1)) put(out, "the formula of ");
        else print(out, "the %s %s of ", values_before == 1 ? "first" : "second", r->formula ? "formula" : "value");
        if (r->within > PARAMETER) print(out, "`%u` (%s)", r->within, names[r->within]);
        put(out, " in ");
    }
    put_numbered(out, part->name, part->number);
}

/* What has been read, in words; of much only the last part. */
static void put_read(struct place *p, size_t last) {
    if (p->read.length == 0) return;
    if (p->read.length <= LONG_READ) {
        put_kept(&p->words, &p->read);
    } else {
        put(&p->words, "..");
        if (last && p->read.length - last <= LONG_READ) put_bytes(&p->words, p->read.bytes + last, p->read.length - last);
    }
    put(&p->words, "; ");
}

static void tell_wrong(struct place *p, const struct look *k, size_t line, const struct reading *r, const struct part *part) {
    const size_t field = (size_t)(r->at - fields_of(k, line));
    put_due(&p->due, r, part);
    if (r->wrong == ENDS) {
        put_kept(&p->words, &p->due);
        put(&p->words, " is missing");
        return;
    }
    put_field(p, k, line, field);
    switch (r->wrong) {
    case NO_MARK:
        print(&p->words, ", is no mark of a %s: ", r->formula ? "formula, 10 to 16" : "value, 0 to 6");
        put_kept(&p->words, &p->due);
        put(&p->words, " is due");
        if (!r->formula && (*r->at < TRUE || *r->at > OR)) print(&p->words, " (the number is `0 %u`)", *r->at);
        break;
    case NO_PARAMETER:
        print(&p->words, ": there is no parameter %c%u, the last is %c%u", part->letter, *r->at, part->letter, r->parameters - 1);
        break;
    case NO_SUM_VALUE: put(&p->words, ": the sum value is for rows and marks alone (the number is `0 2`)"); break;
    default: print(&p->words, ": the term is deeper than %d", MAX_DEPTH);
    }
}

static void tell_6(struct place *p, const struct look *k, size_t line) {
    const unsigned kind = kind_of(k, line);
    const uint16_t *first = fields_of(k, line);
    struct reading r = {
        .at = first + (is_row(kind) ? 3 : 1), .end = first + field_count(k, line), .has_sum = is_row(kind) || kind == MARKS,
        .parameters = count_kind(k, kind == SPEC_ROW ? SPEC_PARAMETER : IMPL_PARAMETER, k->lines),
    };
    struct part part;
    size_t last = 0;
    if (kind <= SPEC_PARAMETER) return;
    for (unsigned i = 0; part_of(k, kind, i, &part); i++) {
        const term start = r.at;
        if (!read_term(&r, part.formula, MAX_DEPTH, 0, 0)) {
            put_read(p, last);
            tell_wrong(p, k, line, &r, &part);
            return;
        }
        last = p->read.length;
        if (i > 0) put(&p->read, ", ");
        put_numbered(&p->read, part.read, part.number);
        if (part.formula) print_formula(&p->read, start, part.letter);
        else print_value(&p->read, start, part.letter);
    }
    if (r.at == r.end) return;
    put_read(p, last);
    put_field(p, k, line, (size_t)(r.at - first));
    put(&p->words, kind == MARKS ? ", comes after the mark of the last internal row" : ", comes after the last term");
    put(&p->due, "the end of the line");
}

/* ---- 7: actions ---- */

/* The first line before `below` that is a row of this kind and action; 0 if there is none. */
static size_t row_with(const struct look *k, unsigned kind, unsigned action, size_t below) {
    for (size_t line = 1; line < below; line++)
        if (kind_of(k, line) == kind && fields_of(k, line)[1] == action) return line;
    return 0;
}

/* The first row of the implementation with this action and another span; 0 if there is none. */
static size_t row_with_other_span(const struct look *k, unsigned action, unsigned span) {
    for (size_t line = 1; line <= k->lines; line++)
        if (kind_of(k, line) == IMPL_ROW && fields_of(k, line)[1] == action && fields_of(k, line)[2] != span) return line;
    return 0;
}

/* The place of the data of an internal row, if they are other than `0 0`. */
static void tell_internal(struct place *p, const struct look *k, size_t line) {
    const uint16_t *first = fields_of(k, line);
    struct reading r = {.at = first + 3, .end = first + field_count(k, line), .has_sum = true, .parameters = MAX_PARAMETERS};
    if (!read_term(&r, true, MAX_DEPTH, 0, 0) || r.at + 1 >= r.end || (r.at[0] == NUMBER && r.at[1] == 0)) return;
    put_field(p, k, line, (size_t)(r.at - first));
    put(&p->words, ": an internal row has data other than 0 0, namely ");
    print_value(&p->words, r.at, 'p');
}

static void tell_7(struct place *p, const struct look *k, size_t line) {
    const unsigned kind = kind_of(k, line), action = fields_of(k, line)[1], span = fields_of(k, line)[2];
    if (!is_row(kind)) return;
    const size_t earlier = action == INTERNAL ? 0 : row_with(k, kind, action, line);
    const size_t boards = kind == SPEC_ROW ? row_with_other_span(k, action, span) : 0;
    if (earlier) {
        print(&p->words, "action %u has a row already, in line %zu", action, text_line(k->text, earlier));
    } else if (kind == IMPL_ROW) {
        if (action == INTERNAL) tell_internal(p, k, line);
        return;
    } else if (action == INTERNAL) {
        put(&p->words, "a specification row has action 0");
    } else if (boards) {
        print(&p->words, "action %u has span %u here, %u in the implementation, in line %zu", action, span, fields_of(k, boards)[2],
              text_line(k->text, boards));
    }
    if (p->words.length) at_field(p, k, line, earlier || action == INTERNAL ? 1 : 2);
}

/* ---- typed files ---- */

static void tell_slip(struct place *p, const struct slip *slip) {
    if (slip->line == 0) {
        print(&p->words, "more than %d bytes, blanks and comments among them", MOST_TYPED);
        return;
    }
    quote(p, slip->column, slip->word, slip->length < SLIP_BYTES ? slip->length : SLIP_BYTES);
    if (slip->length > SLIP_BYTES) put(&p->words, ", which goes on,");
    put(&p->words, slip->comment ? " begins a comment, which is for --typed" : " is no number from 0 to 65535");
}

/* ---- all places of a fault ---- */

/* Its lines, counted in the text; of a typed file that isn't a text those of its slips, counted in the file. */
struct listed {
    struct look look;
    size_t count;
    size_t line[MOST_LISTED];
    size_t more;            /* how many further ones are known of */
    bool over;              /* there are further ones still */
    struct output no_lines; /* what no line shows, in words */
};

static void list_lines(struct listed *l, const struct text *t) {
    size_t from = 1, line;
    while ((line = fault_line(t->bytes, t->len, from)) >= from && !l->over) {
        if (l->count < MOST_LISTED) l->line[l->count++] = line;
        else l->over = true;
        from = line + 1;
    }
}

static void list_slips(struct listed *l, const struct text *t) {
    l->count = t->slips < MOST_SLIPS ? t->slips : MOST_SLIPS;
    l->more = t->slips - l->count;
    for (size_t i = 0; i < l->count; i++) l->line[i] = t->slip[i].line;
}

/* What is found in a text; to be freed. */
static struct listed *list(const struct fault *f) {
    struct listed *l = calloc(1, sizeof *l);
    if (!l) no_memory();
    l->no_lines.file = KEPT;
    if (!f->text) return l;
    l->look.text = f->text;
    if (f->number == 0) {
        list_slips(l, f->text);
        return l;
    }
    find_lines(&l->look);
    find_fields(&l->look);
    list_lines(l, f->text);
    l->look.first = l->line[0];
    if (f->number == 1) print(&l->no_lines, "more than %d bytes", MAX_TEXT);
    if (f->number == 4) tell_no_lines(&l->no_lines, &l->look);
    if (l->no_lines.error) no_memory();
    return l;
}

static void free_listed(struct listed *l) {
    free(l->no_lines.bytes);
    free(l);
}

/* How many places there are, that without a line among them. */
static size_t place_count(const struct listed *l) {
    return l->count + l->more + (l->no_lines.length > 0);
}

/* Place i, counted from 0; the one without a line is the last. To be freed. */
static struct place place_at(const struct fault *f, const struct listed *l, size_t i) {
    static void (*const tell[])(struct place *, const struct look *, size_t) = {
        [2] = tell_2, [3] = tell_3, [4] = tell_4, [5] = tell_5, [6] = tell_6, [7] = tell_7,
    };
    if (i >= l->count) {
        struct place p = new_place(0);
        put_kept(&p.words, &l->no_lines);
        return whole_place(p);
    }
    struct place p = new_place(f->number ? text_line(f->text, l->line[i]) : l->line[i]);
    if (i >= MOST_DESCRIBED) return p;
    if (f->number == 0) tell_slip(&p, &f->text->slip[i]);
    else if (f->number <= 7 && tell[f->number] && l->line[i] <= l->look.lines) tell[f->number](&p, &l->look, l->line[i]);
    return whole_place(p);
}

/* ---- in words ---- */

static size_t listed_line(const struct fault *f, const struct listed *l, size_t i) {
    return f->number ? text_line(f->text, l->line[i]) : l->line[i];
}

/* The lines from a place on, those in a row together: "lines 5, 8 to 11". */
static void put_lines(struct output *out, const struct fault *f, const struct listed *l, size_t start) {
    const size_t first = listed_line(f, l, start), last = listed_line(f, l, l->count - 1);
    unsigned ranges = 0;
    print(out, "line%s ", s(last - first + 1));
    for (size_t i = start, end; i < l->count; i = end) {
        const size_t from = listed_line(f, l, i);
        size_t to = from;
        for (end = i + 1; end < l->count && listed_line(f, l, end) <= to + 1; end++) to = listed_line(f, l, end);
        if (ranges) put(out, ", ");
        if (ranges++ == MOST_RANGES) {
            put(out, "..");
            return;
        }
        if (from == to) print(out, "%zu", from);
        else print(out, to == from + 1 ? "%zu, %zu" : "%zu to %zu", from, to);
    }
    if (l->more || l->over) put(out, ", ..");
}

static void put_others(struct output *out, const struct fault *f, const struct listed *l) {
    print(out, " (and %s%zu more: ", l->over ? "over " : "", place_count(l) - 1);
    if (l->count > 1) put_lines(out, f, l, 1);
    if (l->count > 1 && l->no_lines.length) put(out, "; ");
    put_kept(out, &l->no_lines);
    put(out, ")");
}

/* Where it is, and what. */
static void put_place(struct output *out, const struct fault *f, const struct place *p, const char *before) {
    if (p->line) {
        print(out, "%sline %zu", before, p->line);
        if (f->number == 0) print(out, ", column %zu", p->column);
    }
    if (p->words.length) put(out, ": ");
    put_kept(out, &p->words);
}

void print_turned_down(struct output *out, const struct fault *f) {
    put(out, "turned down");
    if (f->number) print(out, " %u", f->number);
    if (*fault_word(f)) print(out, " (%s)", fault_word(f));
    if (f->line) print(out, ", line %zu", f->line);
    if (f->words[0]) print(out, ": %s", f->words);
    if (!f->text) return;
    struct listed *l = list(f);
    if (place_count(l) > 0) {
        struct place p = place_at(f, l, 0);
        put_place(out, f, &p, ", ");
        free_place(&p);
    }
    if (place_count(l) > 1) put_others(out, f, l);
    free_listed(l);
}

int turn_down(const char *name, const struct fault *f) {
    struct output *m = message();
    put_name(m, name);
    put(m, ": ");
    print_turned_down(m, f);
    return message_sent(m, CHECK_TURNED_DOWN);
}

/* Those that aren't described together in a line. */
void print_places(struct output *out, const struct fault *f) {
    if (!f->text) return;
    struct listed *l = list(f);
    const size_t all = place_count(l) - l->more;
    for (size_t i = 0; i < all && place_count(l) > 1; i++) {
        if (i >= MOST_DESCRIBED && i < l->count) continue;
        struct place p = place_at(f, l, i);
        put(out, "\n  ");
        put_place(out, f, &p, "");
        free_place(&p);
    }
    if (l->count > MOST_DESCRIBED) {
        put(out, "\n  and ");
        put_lines(out, f, l, MOST_DESCRIBED);
    } else if (l->more) {
        print(out, "\n  and %zu more", l->more);
    }
    free_listed(l);
}

/* ---- as JSON ---- */

/* Words of linkcheck's own, which are printed characters of ASCII. */
static void put_string(struct output *out, const char *member, const struct output *words) {
    if (words->length == 0) return;
    print(out, ",\"%s\":\"", member);
    for (size_t i = 0; i < words->length; i++) {
        if (words->bytes[i] == '"' || words->bytes[i] == '\\') put(out, "\\");
        put_bytes(out, &words->bytes[i], 1);
    }
    put(out, "\"");
}

/* The members of a place, each with a comma before it. */
static void json_place(struct output *out, const struct place *p) {
    if (p->line) print(out, ",\"line\":%zu", p->line);
    if (p->column) print(out, ",\"column\":%zu", p->column);
    put_string(out, "fault", &p->words);
    put_string(out, "quoted", &p->quoted);
    put_string(out, "read", &p->read);
    put_string(out, "due", &p->due);
}

static void json_places(struct output *out, const struct fault *f, const struct listed *l) {
    const size_t all = place_count(l) - l->more;
    put(out, ",\"faults\":[");
    for (size_t i = 0; i < all; i++) {
        struct place p = place_at(f, l, i);
        struct output members = {.file = KEPT};
        json_place(&members, &p);
        if (members.error) no_memory();
        print(out, "%s{", i ? "," : "");
        if (members.length) put_bytes(out, members.bytes + 1, members.length - 1);
        put(out, "}");
        free(members.bytes);
        free_place(&p);
    }
    put(out, "]");
    if (l->more) print(out, ",\"more\":%zu", l->more);
    if (l->over) put(out, ",\"further\":true");
}

void json_fault(struct output *out, const struct fault *f) {
    if (f->number) print(out, ",\"number\":%u", f->number);
    if (*fault_word(f)) print(out, ",\"about\":\"%s\"", fault_word(f));
    if (f->line) print(out, ",\"line\":%zu", f->line);
    if (f->words[0]) print(out, ",\"fault\":\"%s\"", f->words);
    if (!f->text) return;
    struct listed *l = list(f);
    if (place_count(l) > 0) {
        struct place p = place_at(f, l, 0);
        json_place(out, &p);
        free_place(&p);
        json_places(out, f, l);
    }
    free_listed(l);
}
