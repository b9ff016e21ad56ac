// What plain.h says. Marks, places and the struct that comes back are the evaluator's.
#include "plain.h"

typedef struct { uint16_t value; size_t next; } valued;
typedef struct { bool holds; size_t next; } held;

static held formula(const uint16_t *f, size_t at, const uint16_t *p, uint16_t s);

static valued value(const uint16_t *f, size_t at, const uint16_t *p, uint16_t s) {
    uint16_t mark = f[at];
    switch (mark) {
    case 0: return (valued){f[at + 1], at + 2};
    case 1: return (valued){p[f[at + 1]], at + 2};
    case 2: return (valued){s, at + 1};
    case 3: { valued a = value(f, at + 1, p, s), b = value(f, a.next, p, s); return (valued){(uint16_t)(a.value + b.value), b.next}; }
    case 4: { valued a = value(f, at + 1, p, s), b = value(f, a.next, p, s); return (valued){(uint16_t)(a.value - b.value), b.next}; }
    case 5: { valued a = value(f, at + 1, p, s), b = value(f, a.next, p, s); return (valued){b.value ? (uint16_t)(a.value % b.value) : a.value, b.next}; }
    case 6: { held h = formula(f, at + 1, p, s); valued a = value(f, h.next, p, s), b = value(f, a.next, p, s); return (valued){h.holds ? a.value : b.value, b.next}; }
    }
    return (valued){0, at};
}

static held formula(const uint16_t *f, size_t at, const uint16_t *p, uint16_t s) {
    uint16_t mark = f[at];
    switch (mark) {
    case 10: return (held){true, at + 1};
    case 11: return (held){false, at + 1};
    case 12: { valued a = value(f, at + 1, p, s), b = value(f, a.next, p, s); return (held){a.value == b.value, b.next}; }
    case 13: { valued a = value(f, at + 1, p, s), b = value(f, a.next, p, s); return (held){a.value < b.value, b.next}; }
    case 14: { held a = formula(f, at + 1, p, s); return (held){!a.holds, a.next}; }
    case 15: { held a = formula(f, at + 1, p, s), b = formula(f, a.next, p, s); return (held){a.holds & b.holds, b.next}; }
    case 16: { held a = formula(f, at + 1, p, s), b = formula(f, a.next, p, s); return (held){a.holds | b.holds, b.next}; }
    }
    return (held){false, at};
}

uint16_t plain_value(const uint16_t *fields, size_t at, const uint16_t *params, uint16_t sum) { return value(fields, at, params, sum).value; }

bool plain_formula(const uint16_t *fields, size_t at, const uint16_t *params, uint16_t sum) { return formula(fields, at, params, sum).holds; }
