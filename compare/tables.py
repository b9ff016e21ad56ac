#!/usr/bin/env python3
"""Writes the tables of compare/tables that are edges of the rules: each limit, turned-down number and criterion, marks, measures, terms
without a value, and first internal steps.

Usage: tables.py DIRECTORY. The same files come out each time. The other tables there are kept by hand.
"""
import os
import sys

# A table is a list of lines, a line a list of numbers.
PUMP = [
    [1, 3, 0], [1, 4, 0], [2, 2, 0], [2, 4, 0],
    [3, 1, 4, 12, 1, 0, 0, 0, 2, 0, 1, 2],
    [3, 0, 1, 12, 1, 0, 0, 1, 0, 0, 0, 2, 1, 1],
    [3, 2, 1, 12, 1, 0, 0, 2, 1, 1, 0, 0, 1, 1],
    [4, 1, 4, 12, 1, 0, 0, 0, 2, 0, 1, 2],
    [4, 2, 1, 12, 1, 0, 0, 1, 1, 1, 0, 0, 1, 1],
    [5, 10],
    [6, 6, 12, 1, 0, 0, 0, 0, 0, 0, 1, 1, 1],
    [7, 6, 12, 1, 0, 0, 1, 0, 1, 0, 0],
]

directory = sys.argv[1]
made = {}


def stored(name):
    """A table that is kept by hand."""
    with open(os.path.join(directory, name + ".txt")) as file:
        return [[int(line[i:i + 6]) for i in range(0, len(line) - 1, 6)] for line in file]


def text(lines):
    return b"".join(b"".join(b"%6d" % n for n in line) + b"\n" for line in lines)


def put(name, table):
    assert name not in made, name
    made[name] = table if isinstance(table, bytes) else text(table)


def changed(table, at, *lines):
    """The table with other lines, none or more, in place of the one at a place."""
    at %= len(table)
    return table[:at] + [list(line) for line in lines] + table[at + 1:]


def spliced(bytes_, at, new):
    return bytes_[:at] + new + bytes_[at + len(new):]


def small(rows=(), spec_rows=(), parameters=((1, 0),), spec_parameters=((1, 0),), invariant=(10,), mapping=None, measure=(0, 0)):
    if mapping is None:
        mapping = [0, 0] * len(spec_parameters)
    return ([[1, *p] for p in parameters] + [[2, *p] for p in spec_parameters] + [[3, *r] for r in rows] + [[4, *r] for r in spec_rows]
            + [[5, *invariant], [6, *mapping], [7, *measure]])


def nested(depth):
    """A formula of that depth, of negations."""
    return [14] * (depth - 1) + [10]


def nested_value(depth):
    """A value of that depth, of sums in the second place."""
    return [3, 0, 1] * (depth - 1) + [0, 1]


def wide_formula(fields):
    """A true formula with that many fields, of depth at most 10."""
    if fields == 1:
        return [10]
    if fields == 2:
        return [14, 11]
    left = (fields - 1) // 2
    return [15] + wide_formula(left) + wide_formula(fields - 1 - left)


# Turned-down numbers.

good = text(PUMP)


def long_texts():
    # 4,096 fields on as many lines are 28,672 bytes.
    put("t1_ones_28672", b"     1\n" * 4096)
    put("t1_ones_28679", b"     1\n" * 4097)
    put("t1_blank_28672", b" " * 28672)
    put("t1_blank_28673", b" " * 28673)
    put("t1_line_ends_28672", b"\n" * 28672)
    put("t1_line_ends_28673", b"\n" * 28673)
    put("t1_pump_and_bytes", good + b"0" * (28673 - len(good)))
    put("t1_pump_46_times", good * 46)
    put("t1_far", b"     1\n" * 5000)


BAD_COLUMNS = [
    b" 65536", b"    07", b"    00", b"000000", b"      ", b"    -1", b"    +1", b"1     ", b"   1  ", b"  1  2", b"\t    1", b"     a",
    b" 99999", b"999999", b"     \r", b"     \0", b"\xff\xff\xff\xff\xff\xff", b"000001", b" 65540", b" 70000", b"     /", b"     :",
]


def bad_columns():
    middle = good.index(b"\n     3     2") + 1 + 6 * 7
    for i, columns in enumerate(BAD_COLUMNS):
        for place, at in (("first", 0), ("middle", middle), ("last", len(good) - 7)):
            put("t2_columns_%02d_%s" % (i, place), spliced(good, at, columns))
    line_ends = [i for i, b in enumerate(good) if b == 10]
    for place, at in (("first", line_ends[0]), ("middle", line_ends[5]), ("last", line_ends[-1])):
        put("t2_line_short_" + place, good[:at - 1] + good[at:])
        put("t2_line_long_" + place, good[:at] + b" " + good[at:])
        put("t2_empty_line_after_" + place, good[:at + 1] + b"\n" + good[at + 1:])
        put("t2_cut_before_line_end_" + place, good[:at])
        put("t2_carriage_return_" + place, good[:at] + b"\r" + good[at:])
    put("t2_empty_line_before", b"\n" + good)
    put("t2_one_line_end", b"\n")
    put("t2_one_byte", b"1")
    put("t2_one_blank", b" ")
    put("t2_field_without_line_end", b"     1")
    put("t2_field_65535", changed(PUMP, -1, [7, 0, 65535]))


def many_fields():
    for n in (255, 256, 257, 258):
        put("t3_line_%d_invariant" % n, changed(PUMP, 9, [5] + wide_formula(n - 1)))
        put("t3_line_%d_row" % n, changed(PUMP, 4, [3, 1, 4] + wide_formula(n - 7) + [2, 0, 1, 2]))
        put("t3_line_%d_first" % n, [[1] * n] + PUMP[1:])
        put("t3_line_%d_last" % n, PUMP[:-1] + [[7, 0] + [0] * (n - 2)])
    for total in (4095, 4096, 4097):
        head = small()
        rest = total - sum(map(len, head))
        lengths = [256] * (rest // 256 - 1)
        rest -= 256 * len(lengths)
        lengths += [rest // 2, rest - rest // 2]
        put("t3_fields_%d" % total, small(rows=[[0, 1, *wide_formula(n - 7), 0, 0, 0, 0] for n in lengths]))
    put("t3_fields_4096_no_table", [[1] * 256] * 16)
    put("t3_fields_4097_no_table", [[1] * 256] * 16 + [[1]])


def shapes():
    for kind in (0, 8, 9, 65535):
        for place, at in (("first", 0), ("middle", 6), ("last", 11)):
            put("t4_kind_%d_%s" % (kind, place), changed(PUMP, at, [kind] + PUMP[at][1:]))
    for i in range(len(PUMP) - 1):
        if PUMP[i][0] != PUMP[i + 1][0]:
            put("t4_falling_%02d" % i, PUMP[:i] + [PUMP[i + 1], PUMP[i]] + PUMP[i + 2:])
    for kind in range(1, 8):
        put("t4_none_of_kind_%d" % kind, [line for line in PUMP if line[0] != kind])
        put("t4_only_kind_%d" % kind, [line for line in PUMP if line[0] == kind])
    for kind in (5, 6, 7):
        put("t4_two_of_kind_%d" % kind, [line for line in PUMP for _ in range(2 if line[0] == kind else 1)])
    for n in (1, 8, 9):
        put("t4_parameters_%d_implementation" % n, small(parameters=[(2 if i < 2 else 1, 0) for i in range(n)]))
        put("t4_parameters_%d_specification" % n, small(spec_parameters=[(65535, 0)] * n))
    for n in (0, 1, 32, 33):
        put("t4_rows_%d_implementation" % n, small(rows=[[i + 1, 1, 11, 0, 0, 0, 0] for i in range(n)]))
        put("t4_rows_%d_specification" % n, small(spec_rows=[[i + 1, 1, 11, 0, 0, 0, 0] for i in range(n)]))
        put("t4_rows_%d_both" % n, small(rows=[[i + 1, 1, 10, 0, 7, 0, 0] for i in range(n)], spec_rows=[[n - i, 1, 10, 0, 7, 0, 0] for i in range(n)]))
    for n in (1, 2, 4, 5):
        for place, at in (("first", 0), ("middle", 2), ("last", 3)):
            put("t4_parameter_fields_%d_%s" % (n, place), changed(PUMP, at, (PUMP[at] + [0, 0])[:n]))
    for n in (1, 2, 3):
        for place, at in (("first", 4), ("middle", 6), ("last", 8)):
            put("t4_row_fields_%d_%s" % (n, place), changed(PUMP, at, PUMP[at][:n]))
    put("t4_empty_text", b"")
    put("t4_line_of_kind_only", [[5]])


def bounds():
    for place, at in (("first", 0), ("middle", 1), ("third", 2), ("last", 3)):
        kind = PUMP[at][0]
        put("t5_size_0_" + place, changed(PUMP, at, [kind, 0, 0]))
        put("t5_size_1_" + place, changed(PUMP, at, [kind, 1, 0]))
        put("t5_size_65535_" + place, changed(PUMP, at, [kind, 65535, 65534]))
        put("t5_initial_is_size_" + place, changed(PUMP, at, [kind, PUMP[at][1], PUMP[at][1]]))
        put("t5_initial_below_size_" + place, changed(PUMP, at, [kind, PUMP[at][1], PUMP[at][1] - 1]))
        put("t5_initial_65535_" + place, changed(PUMP, at, [kind, PUMP[at][1], 65535]))
    for span in (0, 1, 2, 255, 256, 257, 65535):
        for place, at, other in (("first", 4, 7), ("middle", 5, None), ("last", 8, 6)):
            table = changed(PUMP, at, PUMP[at][:2] + [span] + PUMP[at][3:])
            if other is not None:
                table = changed(table, other, PUMP[other][:2] + [span] + PUMP[other][3:])
            put("t5_span_%d_%s" % (span, place), table)
    for sizes in ((256, 256), (257, 256), (256, 257), (65535, 1), (1, 65535), (65535, 2), (2, 32768), (32768, 2), (2, 32769), (65535, 65535),
                  (4, 4, 4, 4, 4, 4, 4, 4), (4, 4, 4, 4, 4, 4, 4, 5), (65535,) * 8, (16, 16, 16, 16), (17, 16, 16, 16), (256, 256, 0), (0, 65535, 65535),
                  (65535, 65535, 65535, 65535, 0)):
        name = "_".join(map(str, sizes))
        put("t5_sizes_" + name, small(parameters=[(s, 0) for s in sizes]))
        put("t5_spec_sizes_" + name, small(spec_parameters=[(s, 0) for s in sizes]))
        put("t5_sizes_%s_last_fails" % name, small(parameters=[(s, 0) for s in sizes], rows=[
            [0, 1, *all_last(sizes), 0, 0] + [x for i in range(len(sizes)) for x in (1, i)]], measure=(0, 0)))


def all_last(sizes):
    """Holds where each parameter has its last value."""
    formula = [10]
    for i, size in enumerate(sizes):
        formula = [15] + formula + [12, 1, i, 0, max(size, 1) - 1]
    return formula


def terms():
    lines = {"row": 5, "row_first": 4, "spec_row": 8, "invariant": 9, "mapping": 10, "measure": 11}
    start = {"row": 3, "row_first": 3, "spec_row": 3, "invariant": 1, "mapping": 1, "measure": 1}
    for name, at in lines.items():
        line = PUMP[at]
        first = start[name]
        for mark in (7, 8, 9, 17, 18, 100, 65535, 10 if line[first] < 10 else 0):
            put("t6_mark_%d_%s_first" % (mark, name), changed(PUMP, at, line[:first] + [mark] + line[first + 1:]))
            put("t6_mark_%d_%s_last" % (mark, name), changed(PUMP, at, line[:-2] + [mark] + line[-1:]))
        put("t6_early_%s" % name, changed(PUMP, at, line[:-1]))
        put("t6_early_2_%s" % name, changed(PUMP, at, line[:-2]))
        put("t6_late_%s" % name, changed(PUMP, at, line + [10]))
        put("t6_late_term_%s" % name, changed(PUMP, at, line + [0, 0]))
        put("t6_kind_alone_%s" % name, changed(PUMP, at, line[:first]))
    for parameter in (1, 2, 7, 8, 65535):
        put("t6_parameter_%d_row" % parameter, changed(PUMP, 6, [3, 2, 1, 12, 1, parameter, 0, 2, 1, 1, 0, 0, 1, 1]))
        put("t6_parameter_%d_spec_row" % parameter, changed(PUMP, 8, [4, 2, 1, 12, 1, parameter, 0, 1, 1, 1, 0, 0, 1, 1]))
        put("t6_parameter_%d_invariant" % parameter, changed(PUMP, 9, [5, 13, 1, parameter, 0, 9]))
        put("t6_parameter_%d_mapping" % parameter, changed(PUMP, 10, [6, 0, 0, 1, parameter]))
        put("t6_parameter_%d_measure" % parameter, changed(PUMP, 11, [7, 1, parameter]))
    put("t6_sum_invariant", changed(PUMP, 9, [5, 12, 2, 2]))
    put("t6_sum_mapping_first", changed(PUMP, 10, [6, 2, 1, 1]))
    put("t6_sum_mapping_last", changed(PUMP, 10, [6, 0, 0, 2]))
    put("t6_sum_measure", changed(PUMP, 11, [7, 2]))
    for depth in (1, 31, 32, 33, 34, 64):
        f, v = nested(depth), nested_value(depth)
        put("t6_depth_%d_condition" % depth, changed(PUMP, 5, [3, 0, 1] + f + [0, 0, 0, 2, 1, 1]))
        put("t6_depth_%d_data" % depth, changed(changed(PUMP, 6, PUMP[6][:8] + v + PUMP[6][10:]), 8, PUMP[8][:8] + v + PUMP[8][10:]))
        put("t6_depth_%d_next" % depth, changed(PUMP, 6, PUMP[6][:-2] + v))
        put("t6_depth_%d_spec_condition" % depth, changed(PUMP, 8, [4, 2, 1] + f + PUMP[8][8:]))
        put("t6_depth_%d_spec_next" % depth, changed(PUMP, 8, PUMP[8][:-2] + v))
        put("t6_depth_%d_invariant" % depth, changed(PUMP, 9, [5] + f))
        put("t6_depth_%d_mapping" % depth, changed(PUMP, 10, PUMP[10][:-2] + v))
        put("t6_depth_%d_measure" % depth, changed(PUMP, 11, [7] + v))
    for n in (31, 32, 33):
        put("t6_depth_%d_left" % n, changed(PUMP, 11, [7] + [3] * (n - 1) + [0, 1] * n))
        put("t6_depth_%d_mixed" % n, changed(PUMP, 11, [7] + ([6, 12] * n)[:n - 1] + ([0, 1] if n % 2 else [0, 1]) + tail(n)))


def tail(n):
    """What closes n - 1 marks `6 12 6 12 ..` opened before a value, inner ones first."""
    out = []
    for mark in reversed(([6, 12] * n)[:n - 1]):
        out += [0, 1] if mark == 12 else [0, 2, 0, 3]
    return out


def actions():
    for place, rows, table in (("implementation", [4, 5, 6], PUMP), ("specification", [7, 8], PUMP)):
        for at in rows:
            for other in rows:
                if at < other and PUMP[at][1] and PUMP[other][1]:
                    put("t7_twice_%s_%d_%d" % (place, at, other), changed(table, other, [PUMP[other][0], PUMP[at][1]] + PUMP[other][2:]))
        put("t7_row_again_%s" % place, table[:rows[-1] + 1] + [table[rows[-1]]] + table[rows[-1] + 1:])
    put("t7_internal_again", PUMP[:6] + [PUMP[5]] + PUMP[6:])
    put("t7_specification_internal_first", changed(PUMP, 7, [4, 0, 1, 11, 0, 0, 1, 0, 1, 1]))
    put("t7_specification_internal_last", changed(PUMP, 8, [4, 0, 1, 11, 0, 0, 1, 0, 1, 1]))
    for i, data in enumerate(([0, 1], [0, 65535], [1, 0], [2], [3, 0, 0, 0, 0], [4, 0, 0, 0, 0], [6, 10, 0, 0, 0, 0])):
        put("t7_internal_data_%d" % i, changed(PUMP, 5, PUMP[5][:8] + data + PUMP[5][10:]))
    for span in (3, 5, 256):
        put("t7_span_%d_implementation" % span, changed(PUMP, 4, [3, 1, span] + PUMP[4][3:]))
        put("t7_span_%d_specification" % span, changed(PUMP, 7, [4, 1, span] + PUMP[7][3:]))
        put("t7_span_%d_last" % span, changed(PUMP, 8, [4, 2, span] + PUMP[8][3:]))
    many = [[i, 1, 11, 0, 0, 0, 0] for i in range(1, 33)]
    for at in (1, 16, 31):
        rows = many[:at] + [[1] + many[at][1:]] + many[at + 1:]
        put("t7_first_action_again_at_%d" % at, small(rows=rows))
        put("t7_first_action_again_at_%d_specification" % at, small(spec_rows=rows))
        put("t7_last_span_differs_at_%d" % at, small(rows=many, spec_rows=many[:at] + [[at + 1, 2] + many[at][2:]] + many[at + 1:]))
    put("t7_action_65535", small(rows=[[65535, 1, 10, 0, 1, 0, 0]], spec_rows=[[65535, 1, 10, 0, 1, 0, 0]]))
    put("t7_alone_with_spans", small(rows=[[1, 2, 11, 0, 0, 0, 0]], spec_rows=[[2, 3, 11, 0, 0, 0, 0]]))


def together():
    """Two faults in one text: the lower number is given."""
    twice = changed(PUMP, 8, [4, 1, 4] + PUMP[8][3:])
    bad_map = lambda t: [[6, 2, 1, 1] if line[0] == 6 else line for line in t]
    bad_initial = lambda t: changed(t, 3, [2, 4, 4])
    no_measure = lambda t: [line for line in t if line[0] != 7]
    many = lambda t: t[:-1] + [t[-1] + [0] * 257]
    put("t67", bad_map(twice))
    put("t57", bad_initial(twice))
    put("t56", bad_initial(bad_map(PUMP)))
    put("t47", no_measure(twice))
    put("t46", no_measure(bad_map(PUMP)))
    put("t45", no_measure(bad_initial(PUMP)))
    put("t37", many(twice))
    put("t36", many(bad_map(PUMP)))
    put("t35", many(bad_initial(PUMP)))
    put("t34", many(PUMP[1:4] + PUMP[4:6] + PUMP[7:] + [[3]]))
    put("t27", text(twice) + b"\n")
    put("t26", text(bad_map(PUMP)) + b"\n")
    put("t25", text(bad_initial(PUMP)) + b"\n")
    put("t24", text(no_measure(PUMP)) + b"\n")
    put("t23", text(many(PUMP)) + b" ")
    put("t234567", text(many(bad_map(bad_initial(twice)))) + b"\n")


# Criteria. The wide table: phase (3) and price (8); the mapping keeps the price and takes phases 1 and 2 together.
#   1  action 7, span 8: phase 0 to 1, takes the price     2  internal, span 5: phase 1 to 2
#   3  action 9, span 3: phase 2 to 0, tells price + sum   4  action 11, span 2: everywhere, keeps the state

WIDE = [
    [1, 3, 0], [1, 8, 0], [2, 2, 0], [2, 8, 0],
    [3, 7, 8, 12, 1, 0, 0, 0, 2, 0, 1, 2],
    [3, 0, 5, 12, 1, 0, 0, 1, 0, 0, 0, 2, 1, 1],
    [3, 9, 3, 12, 1, 0, 0, 2, 3, 1, 1, 2, 0, 0, 1, 1],
    [3, 11, 2, 10, 0, 3, 1, 0, 1, 1],
    [4, 7, 8, 12, 1, 0, 0, 0, 2, 0, 1, 2],
    [4, 11, 2, 10, 0, 3, 1, 0, 1, 1],
    [4, 9, 3, 12, 1, 0, 0, 1, 3, 1, 1, 2, 0, 0, 1, 1],
    [5, 10],
    [6, 6, 12, 1, 0, 0, 0, 0, 0, 0, 1, 1, 1],
    [7, 6, 12, 1, 0, 0, 1, 0, 1, 0, 0],
]
# Line, condition, data, next phase, next price.
ROWS = {
    1: (4, [12, 1, 0, 0, 0], [2], [0, 1], [2]),
    2: (5, [12, 1, 0, 0, 1], [0, 0], [0, 2], [1, 1]),
    3: (6, [12, 1, 0, 0, 2], [3, 1, 1, 2], [0, 0], [1, 1]),
    4: (7, [10], [0, 3], [1, 0], [1, 1]),
}
SPEC_ROWS = {
    1: (8, [12, 1, 0, 0, 0], [2], [0, 1], [2]),
    2: (9, [10], [0, 3], [1, 0], [1, 1]),
    3: (10, [12, 1, 0, 0, 1], [3, 1, 1, 2], [0, 0], [1, 1]),
}


def at_state(phase, price):
    return [15, 12, 1, 0, 0, phase, 12, 1, 1, 0, price]


def at_sum(phase, price, sum_value):
    return [15, 12, 2, 0, sum_value] + at_state(phase, price)


def with_row(rows, row, **parts):
    line, condition, data, phase, price = rows[row]
    parts = {"condition": condition, "data": data, "phase": phase, "price": price, **parts}
    return changed(WIDE, line, WIDE[line][:3] + parts["condition"] + parts["data"] + parts["phase"] + parts["price"])


def choice(formula, first, second):
    return [6] + formula + first + second


def criteria():
    put("c_wide", WIDE)
    for place, initial in (("first", (0, 0)), ("middle", (1, 4)), ("last", (2, 7))):
        start = changed(changed(WIDE, 0, [1, 3, initial[0]]), 1, [1, 8, initial[1]])
        good_start = changed(changed(start, 2, [2, 2, min(initial[0], 1)]), 3, [2, 8, initial[1]])
        put("c1_start_good_" + place, good_start)
        put("c1_invariant_" + place, changed(good_start, 11, [5, 14] + at_state(*initial)))
        put("c1_mapping_phase_" + place, changed(good_start, 2, [2, 2, 1 - min(initial[0], 1)]))
        put("c1_mapping_price_" + place, changed(good_start, 3, [2, 8, (initial[1] + 1) % 8]))
    put("c1_invariant_false", changed(WIDE, 11, [5, 11]))
    places = (("first", (0, 0)), ("middle", (1, 3)), ("last", (2, 7)))
    for place, state in places:
        put("c2_phase_" + place, changed(WIDE, 12, [6] + choice(at_state(*state), [0, 2], [6, 12, 1, 0, 0, 0, 0, 0, 0, 1]) + [1, 1]))
        put("c2_price_" + place, changed(WIDE, 12, [6, 6, 12, 1, 0, 0, 0, 0, 0, 0, 1] + choice(at_state(*state), [0, 8], [1, 1])))
        put("c2_65535_" + place, changed(WIDE, 12, [6, 6, 12, 1, 0, 0, 0, 0, 0, 0, 1] + choice(at_state(*state), [0, 65535], [1, 1])))
    for place, initial, out in (("first", 5, 0), ("middle", 0, 6), ("last", 0, 11)):
        for i, value in enumerate((4, 65535)):
            put("c2_%d_%s" % (i, place), small(parameters=[(12, initial)], spec_parameters=[(4, 0)], mapping=choice([12, 1, 0, 0, out], [0, value], [0, 0])))
            put("c2_%d_%s_last_value" % (i, place), small(parameters=[(12, initial)], spec_parameters=[(4, 0)] * 8, mapping=[0, 0] * 7 + choice(
                [12, 1, 0, 0, out], [0, value], [0, 0])))
    for place, state in places:
        put("c3_invariant_cut_" + place, changed(WIDE, 11, [5, 14] + at_state(*state)))
    for row, phases in ((1, (0,)), (2, (1,)), (3, (2,)), (4, (0, 1, 2))):
        span = WIDE[ROWS[row][0]][2]
        for phase in phases:
            for price in (0, 3, 7):
                for s in sorted({0, span // 2, span - 1}):
                    name = "row%d_%d_%d_%d" % (row, phase, price, s)
                    here = at_sum(phase, price, s)
                    put("c3_phase_" + name, with_row(ROWS, row, phase=choice(here, [0, 3], ROWS[row][3])))
                    put("c3_price_" + name, with_row(ROWS, row, price=choice(here, [0, 8], ROWS[row][4])))
                    if row == 2:
                        put("c4_price_" + name, with_row(ROWS, row, price=choice(here, [5, 3, 1, 1, 0, 1, 0, 8], [1, 1])))
                        put("c4_phase_" + name, with_row(ROWS, row, phase=choice(here, [0, 0], [0, 2])))
                        put("c5_stays_" + name, with_row(ROWS, row, phase=choice(here, [0, 1], [0, 2])))
                    else:
                        put("c8_data_" + name, with_row(ROWS, row, data=choice(here, [0, 99], ROWS[row][2])))
                        put("c9_price_" + name, with_row(ROWS, row, price=choice(here, [5, 3, *ROWS[row][4], 0, 1, 0, 8], ROWS[row][4])))
                        put("c9_phase_" + name, with_row(ROWS, row, phase=choice(here, [5, 3, *ROWS[row][3], 0, 1, 0, 2] if row != 1 else [0, 0], ROWS[row][3])))
                        put("c7_" + name, with_row(ROWS, row, condition=[15] + ROWS[row][1] + [14] + here))
    for row, phase in ((1, 0), (2, 0), (2, 1), (3, 1)):
        span = WIDE[SPEC_ROWS[row][0]][2]
        for price in (0, 3, 7):
            for s in sorted({0, span // 2, span - 1}):
                name = "row%d_%d_%d_%d" % (row, phase, price, s)
                here = at_sum(phase, price, s)
                put("c6_" + name, with_row(SPEC_ROWS, row, condition=[15] + SPEC_ROWS[row][1] + [14] + here))
                put("c8_spec_data_" + name, with_row(SPEC_ROWS, row, data=choice(here, [0, 99], SPEC_ROWS[row][2])))
                put("c9_spec_price_" + name, with_row(SPEC_ROWS, row, price=choice(here, [0, 65535], SPEC_ROWS[row][4])))
    for row in (1, 3, 4):
        put("c6_no_spec_row_%d" % row, [line for line in WIDE if line[0] != 4 or line[1] != WIDE[ROWS[row][0]][1]])
        put("c7_no_row_%d" % row, [line for line in WIDE if line[0] != 3 or line[1] != WIDE[ROWS[row][0]][1]])
    for place, state in places:
        put("c5_measure_0_from_" + place, changed(WIDE, 13, [7] + choice([13, 1, 1, 0, state[1] + 1], [6, 12, 1, 0, 0, 1, 0, 1, 0, 0], [0, 5])))
        put("c6_outside_invariant_" + place, changed(with_row(ROWS, 3, condition=[16, 12, 1, 0, 0, 2] + at_state(0, state[1])), 11, [5, 10]))
    put("c_outside_invariant_all", small(parameters=[(4, 0)], rows=[[0, 1, 13, 0, 0, 1, 0, 0, 0, 1, 0]], invariant=[12, 1, 0, 0, 0]))


def state_of(number, sizes):
    """The values of the state with a number."""
    values = []
    for size in reversed(sizes):
        values.insert(0, number % size)
        number //= size
    return values


def many_states():
    # Accepted after all 65,536 states, and failing at the first, a middle and the last.
    for state in (0, 32768, 65535):
        for sizes in ((256, 256), (32768, 2), (2, 32768), (4,) * 8):
            formula = [10]
            for i, v in enumerate(state_of(state, sizes)):
                formula = [15] + formula + [12, 1, i, 0, v]
            table = small(parameters=[(s, 0) for s in sizes], rows=[[1, 1] + formula + [0, 0] + [x for i in range(len(sizes)) for x in (1, i)]])
            put("s_%d_%s" % (state, "_".join(map(str, sizes))), table)
    put("s_last_sum_255", small(parameters=[(256, 0)], rows=[[1, 256, 15, 12, 1, 0, 0, 255, 12, 2, 0, 255, 0, 0, 1, 0]]))
    put("s_wrap_sum", small(parameters=[(2, 0)], rows=[[1, 1, 10, 3, 0, 65535, 0, 2, 1, 0]], spec_rows=[[1, 1, 10, 0, 1, 0, 0]]))
    put("s_wrap_difference", small(parameters=[(2, 0)], rows=[[1, 1, 10, 4, 0, 1, 0, 2, 1, 0]], spec_rows=[[1, 1, 10, 0, 65535, 0, 0]]))
    put("s_remainder_by_0", small(parameters=[(2, 0)], rows=[[1, 1, 10, 5, 0, 7, 0, 0, 1, 0]], spec_rows=[[1, 1, 10, 0, 7, 0, 0]]))


# Marks. RETRY: state 0 sends, and sum value 1 alone delivers; state 1 tells. CHAIN: states 0, 1, 2 lead on by rows 1, 3, 5 for sum value 0,
# and rows 3 and 5 lead back or stay for the others; state 3 tells; row 4 is everywhere.

RETRY = small(parameters=[(2, 0)], rows=[[0, 3, 12, 1, 0, 0, 0, 0, 0, 6, 12, 2, 0, 1, 0, 1, 0, 0], [1, 1, 12, 1, 0, 0, 1, 0, 7, 0, 0]],
              spec_rows=[[1, 1, 10, 0, 7, 0, 0]], measure=[4, 0, 1, 1, 0])
CHAIN = small(parameters=[(4, 0)], rows=[
    [0, 1, 12, 1, 0, 0, 0, 0, 0, 0, 1],
    [5, 1, 12, 1, 0, 0, 3, 0, 9, 0, 0],
    [0, 2, 12, 1, 0, 0, 1, 0, 0, 6, 12, 2, 0, 0, 0, 2, 0, 0],
    [6, 2, 10, 2, 1, 0],
    [0, 3, 12, 1, 0, 0, 2, 0, 0, 6, 12, 2, 0, 0, 0, 3, 6, 12, 2, 0, 1, 0, 0, 0, 2],
], spec_rows=[[6, 2, 10, 2, 0, 0], [5, 1, 10, 0, 9, 0, 0]], measure=[4, 0, 3, 1, 0])
# Each holds for the step of its own row that leads on, and for no step of another.
CHAIN_MARKS = [[12, 1, 0, 0, 0], [15, 12, 1, 0, 0, 1, 12, 2, 0, 0], [15, 12, 1, 0, 0, 2, 12, 2, 0, 0]]
FIRST_SUM = [12, 2, 0, 0]


def marked(table, *formulas):
    return table + [[8] + [n for formula in formulas for n in formula]]


def internal_rows(table):
    return sum(line[:2] == [3, 0] for line in table)


def nested_true(depth):
    """A formula of that depth that holds, of negations."""
    return [14] * (depth - 1) + [10 if depth % 2 else 11]


def first_sum_deep(depth):
    """A formula of that depth that holds for sum value 0."""
    return [15] + FIRST_SUM + nested_true(depth - 1)


def all_marked():
    """As without the line."""
    for name in ("cond_row3_true", "data_row3", "first_size_2", "given", "inv_false", "measure_0", "row2_last_next_0", "row2_removed",
                 "second_map_0", "second_spec_size_3"):
        table = stored("P_" + name)
        put("m_P_" + name, marked(table, *[[10]] * internal_rows(table)))
    for name in ("abp_plain", "buffer2", "buffer2__move_loses", "buffer3__measure_count", "coin_noloop", "no_rows", "trap_two_hop",
                 "wrap_measure_bad", "wrap_measure_good"):
        table = stored(name)
        put("m_" + name, marked(table, *[[10]] * internal_rows(table)))
    put("m_retry_no_line", RETRY)
    put("m_chain_no_line", CHAIN)
    put("m_retry_all", marked(RETRY, [10]))
    put("m_chain_all", marked(CHAIN, [10], [10], [10]))


def marks_of_designs():
    """The alternating bit with one formula changed, and with each in the next one's place."""
    *table, line = stored("abp_marked")
    formulas = [[10], FIRST_SUM, [10], [10], [10], FIRST_SUM, [10], [10]]
    assert marked(table, *formulas)[-1] == line
    for i, formula in enumerate(formulas):
        put("m_abp_none_of_%d" % i, marked(table, *formulas[:i], [11], *formulas[i + 1:]))
        if formula != [10]:
            put("m_abp_all_of_%d" % i, marked(table, *formulas[:i], [10], *formulas[i + 1:]))
    put("m_abp_shifted", marked(table, *formulas[1:], formulas[0]))


def count_of_marks():
    put("m_t6_none", marked(PUMP))
    put("m_t6_one_more", marked(PUMP, [10], [10]))
    put("m_t6_one_for_each_row", marked(PUMP, [10], [10], [10]))
    put("m_t6_half", marked(PUMP, [14]))
    put("m_t6_late_value", marked(PUMP, [10], [0, 0]))
    put("m_t6_late_field", marked(PUMP, [10], [0]))
    for i in range(3):
        put("m_t6_chain_without_%d" % i, marked(CHAIN, *CHAIN_MARKS[:i], *CHAIN_MARKS[i + 1:]))
        put("m_t6_chain_twice_%d" % i, marked(CHAIN, *CHAIN_MARKS[:i + 1], *CHAIN_MARKS[i:]))
    loops = small(rows=[[0, 1, 10, 0, 0, 0, 0]] * 32)
    for n in (31, 32, 33):
        put("m_t6_32_rows_%d_formulas" % n, marked(loops, *[[11]] * n))
    for i in (0, 15, 31):
        put("m_c5_32_rows_loop_%d" % i, marked(loops, *[[11]] * i, [10], *[[11]] * (31 - i)))
    visible = small(rows=[[1, 1, 10, 0, 0, 0, 0]], spec_rows=[[1, 1, 10, 0, 0, 0, 0]])
    for name, table in (("no_rows", small()), ("visible_rows", visible)):
        put("m_alone_" + name, marked(table))
        put("m_t6_10_" + name, marked(table, [10]))
        put("m_t4_alone_twice_" + name, marked(marked(table)))
    internal = small(spec_rows=[[0, 1, 11, 0, 0, 0, 0]])
    put("m_t7_spec_internal", marked(internal))
    put("m_t6_spec_internal_formula", marked(internal, [10]))
    put("m_t7_spec_internal_pump", marked(changed(PUMP, 8, [4, 0, 1, 11, 0, 0, 1, 0, 1, 1]), [10]))
    put("m_t6_spec_internal_pump_formula", marked(changed(PUMP, 8, [4, 0, 1, 11, 0, 0, 1, 0, 1, 1]), [10], [10]))
    put("m_t7_internal_data", marked(changed(PUMP, 5, PUMP[5][:8] + [0, 1] + PUMP[5][10:]), [10]))


def place_of_marks():
    line = [8, 10]
    put("m_t4_two", PUMP + [line, line])
    put("m_t4_two_and_kind_alone", PUMP + [line, [8]])
    for at in (0, 2, 4, 7, 9, 10, 11):
        put("m_t4_before_kind_%d" % PUMP[at][0], PUMP[:at] + [line] + PUMP[at:])
        put("m_t4_then_kind_%d" % PUMP[at][0], PUMP + [line, PUMP[at]])
        others = [other for other in PUMP if other[0] != PUMP[at][0]]
        put("m_t4_then_kind_%d_not_before" % PUMP[at][0], others + [line, PUMP[at]])
    for kind in (0, 9, 13, 14, 65535):
        put("m_t4_then_kind_%d" % kind, PUMP + [line, [kind, 10]])
    put("m_t4_no_measure", PUMP[:-1] + [line])
    put("m_t4_only_marks", [line])
    put("m_t4_only_kind", [[8]])


def terms_of_marks():
    for mark in (0, 1, 2, 3, 7, 8, 9, 17, 18, 65535):
        put("m_t6_mark_%d" % mark, marked(PUMP, [mark]))
        put("m_t6_mark_%d_inside" % mark, marked(PUMP, [14, mark]))
    for i, value in enumerate(([0, 0], [0, 1], [1, 0], [2], [6, 10, 0, 1, 0, 0])):
        put("m_t6_value_%d" % i, marked(PUMP, value))
    put("m_t6_formula_for_value", marked(PUMP, [12, 10, 0, 1]))
    for parameter in (0, 1, 2, 7, 8, 65535):
        put("m_t6_parameter_%d" % parameter, marked(PUMP, [13, 1, parameter, 0, 9]))
    loop = [[0, 1, 10, 0, 0, 1, 0]]
    put("m_t6_parameter_of_specification", marked(small(rows=loop, spec_parameters=[(1, 0)] * 2), [13, 1, 1, 0, 0]))
    put("m_parameter_of_implementation", marked(small(rows=[loop[0] + [1, 1]], parameters=[(1, 0)] * 2), [13, 1, 1, 0, 0]))
    for depth in (31, 32, 33, 34, 64):
        put("m_t6_depth_%d" % depth, marked(PUMP, nested_true(depth)))
        put("m_t6_depth_%d_value" % depth, marked(PUMP, [12] + nested_value(depth - 1) + [0, depth - 1]))
        put("m_t6_depth_%d_first" % depth, marked(CHAIN, nested_true(depth), FIRST_SUM, FIRST_SUM))
        put("m_t6_depth_%d_last" % depth, marked(CHAIN, nested_true(32), first_sum_deep(32), first_sum_deep(depth)))


def fields_of_marks():
    for n in (255, 256, 257, 258):
        put("m_t3_line_%d" % n, marked(PUMP, wide_formula(n - 1)))
    put("m_t3_line_257_of_10", marked(PUMP, [10] * 256))
    rows = [[0, 1, *wide_formula(249), 0, 0, 0, 0]] * 15
    for total in (4095, 4096, 4097):
        table = small(rows=rows)
        last = total - sum(map(len, table)) - 15
        put("m_t3_fields_%d" % total, marked(table, *[[11]] * 14, [14] + wide_formula(last - 1)))
    visible = [[i + 1, 1, *wide_formula(n - 7), 0, 0, 0, 0] for i, n in enumerate([256] * 15 + [242])]
    put("m_t3_fields_4096_without", small(rows=visible))
    put("m_t3_fields_4097_kind_alone", marked(small(rows=visible)))
    put("m_t1_long", marked(PUMP, [10] * 4700))
    text_ = text(marked(PUMP, [10]))
    for i, columns in enumerate(BAD_COLUMNS[:4]):
        put("m_t2_columns_%d" % i, spliced(text_, len(text_) - 7, columns))
        put("m_t2_columns_%d_kind" % i, spliced(text_, len(text_) - 13, columns))
    put("m_t2_no_line_end", text_[:-1])
    put("m_t2_kind_alone_no_line_end", text(marked(small()))[:-1])
    put("m_t2_empty_line_before", text(PUMP) + b"\n" + text([[8, 10]]))
    put("m_t2_empty_line_after", text_ + b"\n")


def faults_with_marks():
    """A fault of the line and another one: the lower number is given."""
    twice = changed(PUMP, 8, [4, 1, 4] + PUMP[8][3:])
    span = changed(PUMP, 5, [3, 0, 0] + PUMP[5][3:])
    put("m_t67", marked(twice, [10], [10]))
    put("m_t56", marked(span, [9]))
    put("m_t46", PUMP + [[8, 9], [8, 10]])
    put("m_t45", marked(marked(span, [10]), [10]))
    put("m_t36", marked(PUMP, [9] * 256))
    put("m_t34", [[8] + [10] * 256] + PUMP)
    put("m_t26", text(marked(PUMP, [9]))[:-1])
    put("m_t23", text(marked(PUMP, wide_formula(256)))[:-1])
    put("m_t6_row_too", marked(changed(PUMP, 5, [3, 0, 1, 9]), [10]))
    put("m_t4_row_too", marked(changed(PUMP, 5, [3, 0]), [10]))


def marks_by_sum():
    delivers = [12, 2, 0, 1]
    for s in range(4):
        put("m_sum_%d" % s, marked(RETRY, [12, 2, 0, s]))
    put("m_sum_not_0", marked(RETRY, [14] + FIRST_SUM))
    put("m_sum_not_1", marked(RETRY, [14] + delivers))
    put("m_sum_below_2", marked(RETRY, [13, 2, 0, 2]))
    put("m_sum_none", marked(RETRY, [11]))
    for state in range(2):
        put("m_sum_at_%d" % state, marked(RETRY, [12, 1, 0, 0, state]))
        put("m_sum_1_at_%d" % state, marked(RETRY, [15] + delivers + [12, 1, 0, 0, state]))
    stays = changed(RETRY, 2, [3, 0, 256] + RETRY[2][3:10] + [6, 12, 2, 0, 255, 0, 1, 0, 0])
    for s in (0, 1, 128, 254, 255):
        put("m_sum_256_%d" % s, marked(stays, [12, 2, 0, s]))
        put("m_sum_256_from_%d" % s, marked(stays, [14, 13, 2, 0, s]))
    # Nothing but the mark reads the sum value.
    moves = changed(RETRY, 2, [3, 0, 4] + RETRY[2][3:10] + [0, 1])
    for s in range(5):
        put("m_sum_in_mark_%d" % s, marked(moves, [12, 2, 0, s]))
        put("m_c5_sum_in_mark_%d" % s, marked(changed(moves, -1, [7, 0, 0]), [12, 2, 0, s]))
        put("m_c5_sum_in_mark_from_%d" % s, marked(changed(moves, -1, [7, 0, 0]), [14, 13, 2, 0, s]))
    # Two rows, each with a sum value and a span of its own.
    own = changed(CHAIN, 2, [3, 0, 4, 12, 1, 0, 0, 0, 0, 0, 6, 12, 2, 0, 3, 0, 1, 0, 0])
    third = [12, 2, 0, 3]
    put("m_sum_own", marked(own, third, FIRST_SUM, FIRST_SUM))
    put("m_sum_own_swapped", marked(own, FIRST_SUM, third, FIRST_SUM))
    put("m_sum_own_none", marked(own, third, third, FIRST_SUM))


def order_of_marks():
    for name in ("abc", "acb", "bac", "bca", "cab", "cba"):
        put("m_order_" + name, marked(CHAIN, *[CHAIN_MARKS["abc".index(letter)] for letter in name]))
    for i in range(3):
        put("m_order_all_of_%d" % i, marked(CHAIN, *CHAIN_MARKS[:i], [10], *CHAIN_MARKS[i + 1:]))
        put("m_order_none_of_%d" % i, marked(CHAIN, *CHAIN_MARKS[:i], [11], *CHAIN_MARKS[i + 1:]))
    put("m_order_first_sums", marked(CHAIN, [10], FIRST_SUM, FIRST_SUM))
    put("m_order_next_state", marked(PUMP, [12, 1, 0, 0, 2]))


def focus_points():
    """Two states; an internal row leads from 0 to 1, and action 1 is enabled in both, in 1 alone, or in 0 for some sum values."""
    step = [0, 1, 12, 1, 0, 0, 0, 0, 0, 0, 1]
    enabled = {"everywhere": [10], "late": [12, 1, 0, 0, 1], "partly": [16, 12, 1, 0, 0, 1, 13, 2, 0, 3]}

    def two_states(where, data=(2,), more=(), measure=(4, 0, 1, 1, 0)):
        visible = [1, 4, *enabled[where], *data, 1, 0]
        return small(parameters=[(2, 0)], rows=[step, visible, *more], spec_rows=[[1, 4, 10, 2, 0, 0]], measure=measure)

    for where in enabled:
        put("m_focus_%s_unmarked" % where, marked(two_states(where), [11]))
        put("m_focus_%s_marked" % where, marked(two_states(where), [10]))
    put("m_focus_everywhere_unmarked_stays", marked(two_states("everywhere", measure=[0, 0]), [11]))
    put("m_c5_everywhere_marked_stays", marked(two_states("everywhere", measure=[0, 0]), [10]))
    put("m_focus_other_row_marked", marked(two_states("late", more=[step]), [11], [10]))
    put("m_focus_no_row_marked", marked(two_states("late", more=[step]), [11], [11]))
    # Criterion 7 before 8.
    put("m_c7_before_8", marked(two_states("partly", data=[0, 9]), [11]))
    put("m_c8_not_7", marked(two_states("partly", data=[0, 9]), [10]))
    # A mark where the condition doesn't hold makes no step.
    never = [0, 1, 11, 0, 0, 1, 0]
    put("m_c7_mark_alone", marked(small(rows=[never], spec_rows=[[1, 1, 10, 0, 0, 0, 0]]), [10]))
    put("m_mark_alone", marked(small(rows=[never, [1, 1, 10, 0, 0, 0, 0]], spec_rows=[[1, 1, 10, 0, 0, 0, 0]]), [10]))


def marks_and_criteria():
    loop = [0, 1, 10, 0, 0, 1, 0]
    put("m_loop_unmarked", marked(small(rows=[loop]), [11]))
    put("m_c5_loop_marked", marked(small(rows=[loop]), [10]))
    put("m_c5_loop_no_line", small(rows=[loop]))
    put("m_c5_second_loop_marked", marked(small(rows=[loop, loop]), [11], [10]))
    put("m_c5_both_loops_marked", marked(small(rows=[loop, loop]), [10], [10]))
    put("m_c7_loop_unmarked", marked(small(rows=[loop], spec_rows=[[1, 1, 10, 0, 0, 0, 0]]), [11]))
    turns = [0, 1, 10, 0, 0, 5, 3, 1, 0, 0, 1, 0, 3]
    circle = small(parameters=[(3, 0)], rows=[turns], measure=[4, 0, 2, 1, 0])
    put("m_turns_unmarked", marked(circle, [11]))
    put("m_turns_marked_down", marked(circle, [13, 1, 0, 0, 2]))
    put("m_c5_turns_marked_up", marked(circle, [14, 13, 1, 0, 0, 2]))
    # The first internal row breaks a criterion where the second breaks another.
    stays, leaves, maps = loop, [0, 1, 12, 1, 0, 0, 0, 0, 0, 0, 2], [0, 1, 12, 1, 0, 0, 0, 0, 0, 0, 1]
    rows = {"5": stays, "3": leaves, "4": maps}
    for first, second in (("5", "3"), ("5", "4"), ("4", "3"), ("3", "4")):
        table = small(parameters=[(2, 0)], spec_parameters=[(2, 0)], rows=[rows[first], rows[second]], mapping=[1, 0])
        for name, formulas in (("first", ([10], [11])), ("second", ([11], [10])), ("none", ([11], [11]))):
            put("m_c%s_then_%s_marked_%s" % (first, second, name), marked(table, *formulas))
    put("m_c3_invariant_unmarked", marked(small(parameters=[(2, 0)], rows=[maps], invariant=[12, 1, 0, 0, 0]), [11]))
    outside = [0, 1, 12, 1, 0, 0, 1, 0, 0, 1, 0]
    put("m_outside_invariant", marked(small(parameters=[(2, 0)], rows=[outside], invariant=[12, 1, 0, 0, 0]), [10]))


def wide_marks():
    for s in (0, 2, 4):
        put("m_wide_sum_%d" % s, marked(WIDE, [12, 2, 0, s]))
    put("m_wide_elsewhere", marked(WIDE, [14, 12, 1, 0, 0, 1]))
    for price in (0, 3, 7):
        put("m_c7_none_at_%d" % price, marked(WIDE, [14] + at_state(1, price)))
        for s in (0, 2, 4):
            here = at_sum(1, price, s)
            for name, table in (
                ("c3_phase", with_row(ROWS, 2, phase=choice(here, [0, 3], [0, 2]))),
                ("c4_price", with_row(ROWS, 2, price=choice(here, [5, 3, 1, 1, 0, 1, 0, 8], [1, 1]))),
                ("c5_stays", with_row(ROWS, 2, phase=choice(here, [0, 1], [0, 2]))),
            ):
                put("m_%s_unmarked_%d_%d" % (name, price, s), marked(table, [14] + here))
                put("m_%s_alone_marked_%d_%d" % (name, price, s), marked(table, [16] + here + [14] + at_state(1, price)))


# Measures. An edge is a row of its own: where it starts, where it leads, and its formula, which is true if it isn't given.

def edges(states, *listed, visible=(), outside=()):
    """So many states in one parameter, and steps along these edges; the invariant holds but in the states outside."""
    rows = [[0, 1, 12, 1, 0, 0, start, 0, 0, 0, end] for start, end, *_ in listed]
    invariant = [10]
    for state in outside:
        invariant = [15, 14, 12, 1, 0, 0, state] + invariant
    table = small(parameters=[(states, 0)], rows=rows + list(visible), invariant=invariant)
    return marked(table, *[rest[0] if rest else [10] for _, _, *rest in listed])


def along(*states):
    return list(zip(states, states[1:]))


def runs():
    put("o_no_row", small(parameters=[(3, 0)]))
    put("o_never_enabled", small(parameters=[(3, 0)], rows=[[0, 4, 11, 0, 0, 1, 0]]))
    put("o_one_step", edges(2, (1, 0)))
    put("o_rising", edges(8, *along(*range(8))))
    put("o_falling", edges(8, *along(*range(7, -1, -1))))
    put("o_scattered", edges(8, *along(5, 2, 7, 0, 3, 6, 1, 4)))
    put("o_scattered_rows_too", edges(8, (3, 6), (1, 4), (7, 0), (5, 2), (6, 1), (2, 7), (0, 3)))
    put("o_longer_way_first", edges(5, *along(0, 1, 2, 3), (0, 3)))
    put("o_longer_way_last", edges(5, (0, 3), *along(0, 1, 2, 3)))
    put("o_two_ends", edges(6, *along(0, 1, 2), *along(0, 3, 4, 5)))
    put("o_same_edge_twice", edges(4, (2, 1), (2, 1), (3, 2), (3, 1), (3, 2)))
    put("o_unmarked_between", edges(5, (4, 3), (3, 2, [11]), (2, 1), (1, 0)))
    put("o_unmarked_longer", edges(4, (3, 0), (3, 2, [11]), (2, 1), (1, 0)))
    put("o_mark_elsewhere", edges(3, (2, 1, [12, 1, 0, 0, 1]), (1, 0, [12, 1, 0, 0, 1])))
    put("o_outside", edges(5, *along(4, 3, 2, 1, 0), outside=[4]))
    put("o_outside_all_but_initial", edges(3, (2, 1), (1, 2), outside=[1, 2]))
    # 5 states; from each to all below by the sum value, and where that is not below, to itself unmarked.
    below = [0, 256, 10, 0, 0, 6, 13, 2, 1, 0, 2, 1, 0]
    put("o_all_below", marked(small(parameters=[(5, 0)], rows=[below]), [13, 2, 1, 0]))
    put("o_next_below", marked(small(parameters=[(5, 0)], rows=[below]), [12, 3, 2, 0, 1, 1, 0]))
    put("o_loop_at_last_sum", marked(small(parameters=[(5, 0)], rows=[below]), [16, 13, 2, 1, 0, 12, 2, 0, 255]))
    # The second parameter counts down, then the first.
    not_first = [14, 15, 12, 1, 0, 0, 0, 12, 1, 1, 0, 0]
    down = [0, 0, 6, 12, 1, 1, 0, 0, 4, 1, 0, 0, 1, 1, 0, 6, 12, 1, 1, 0, 0, 0, 4, 4, 1, 1, 0, 1]
    put("o_two_parameters", small(parameters=[(6, 0), (5, 0)], rows=[[0, 1, *not_first, *down]]))
    put("o_18_two_parameters_unmarked", marked(small(parameters=[(6, 0), (5, 0)], rows=[[0, 1, 10, *down]]), not_first))


def loops():
    put("o_loop_itself", edges(3, (1, 1)))
    put("o_loop_itself_only_state", edges(1, (0, 0)))
    put("o_loop_itself_last_of_chain", edges(6, *along(0, 1, 2, 3, 4, 5), (5, 5)))
    put("o_loop_two", edges(2, (0, 1), (1, 0)))
    put("o_loop_all", edges(7, *along(0, 3, 6, 2, 5, 1, 4, 0)))
    put("o_loop_led_to", edges(8, *along(0, 1, 2, 3), *along(6, 7, 4, 6), (3, 4)))
    put("o_loop_left", edges(8, *along(4, 7, 5, 4), *along(5, 0, 1, 2)))
    put("o_loop_led_to_and_left", edges(7, *along(0, 1, 2), *along(2, 4, 2), *along(4, 5, 6)))
    put("o_loops_apart", edges(7, *along(1, 2, 1), *along(4, 6, 5, 4)))
    put("o_loops_state_between", edges(7, *along(5, 6, 5), *along(6, 0, 2), *along(2, 3, 2)))
    put("o_loops_state_between_falling", edges(7, *along(0, 1, 0), *along(1, 4, 6), *along(6, 5, 6)))
    put("o_loops_that_meet", edges(6, *along(0, 1, 2, 0), *along(2, 3, 4, 2)))
    put("o_loop_by_second_way", edges(5, *along(0, 1, 2, 3), (1, 3), (3, 1)))
    put("o_near_loop_unmarked", edges(5, *along(0, 1, 2, 3, 4), (4, 0, [11])))
    put("o_near_loop_marked_elsewhere", edges(5, *along(0, 1, 2, 3, 4), (4, 0, [13, 1, 0, 0, 4])))
    put("o_near_loop_outside", edges(5, *along(4, 0, 1, 2, 3), outside=[4]))
    put("o_loop_outside", edges(6, *along(3, 4, 5, 3), (5, 1), (1, 0), outside=[3, 4, 5]))
    put("o_loop_led_to_from_outside", edges(5, *along(4, 0, 1, 0), outside=[4]))
    put("o_loop_unmarked", edges(4, (3, 2), (2, 3, [11]), (1, 1, [11]), (1, 0)))
    put("o_loop_visible", edges(3, (2, 1), (1, 0), visible=[[1, 1, 10, 0, 0, 0, 2]]))
    put("o_loop_no_line", edges(4, *along(0, 1, 2, 3), (3, 1, [11]))[:-1])


def steps_that_leave():
    chain = along(3, 2, 1)
    put("o_18_size", edges(4, *chain, (1, 4)))
    put("o_18_size_unmarked", edges(4, *chain, (1, 4, [11])))
    put("o_18_invariant", edges(4, *chain, (1, 0), outside=[0]))
    put("o_18_invariant_unmarked", edges(4, *chain, (1, 0, [11]), outside=[0]))
    put("o_18_visible_size", edges(4, *chain, visible=[[1, 1, 12, 1, 0, 0, 3, 0, 0, 0, 4]]))
    put("o_18_visible_invariant", edges(4, *chain, visible=[[1, 1, 12, 1, 0, 0, 3, 0, 0, 0, 0]], outside=[0]))
    put("o_18_visible_last_sum", edges(4, *chain, visible=[[1, 256, 10, 0, 0, 6, 12, 2, 0, 255, 0, 4, 1, 0]]))
    put("o_18_and_loop", edges(4, *chain, (1, 3), (2, 4)))
    put("o_leaves_outside", edges(4, *chain, (0, 4), visible=[[1, 1, 12, 1, 0, 0, 0, 0, 0, 0, 9]], outside=[0]))


def long_runs():
    """300 states in a chain that rises, falls or is scattered, and what comes after its last state, 7."""
    for name, by in (("rising", 1), ("falling", 299), ("scattered", 197)):
        after = [5, 3, 1, 0, 0, by, 0, 300]
        stops = [0, 1, 14, 12, 1, 0, 0, 7, 0, 0] + after
        goes_on = [0, 1, 10, 0, 0]
        put("o_long_" + name, small(parameters=[(300, 0)], rows=[stops]))
        put("o_long_%s_unmarked" % name, marked(small(parameters=[(300, 0)], rows=[goes_on + after]), [14, 12, 1, 0, 0, 7]))
        put("o_loop_long_%s_stays" % name, small(parameters=[(300, 0)], rows=[goes_on + choice([12, 1, 0, 0, 7], [0, 7], after)]))
        middle = (7 + 280 * by) % 300
        put("o_loop_long_%s_back" % name, small(parameters=[(300, 0)], rows=[goes_on + choice([12, 1, 0, 0, 7], [0, middle], after)]))


# Terms without a value. If a remainder by zero were its dividend, most of these tables would be accepted.

HERE = {"first": (0, 0), "middle": (1, 3), "last": (2, 7)}
NEVER = [5, 0, 7, 0, 0]


def divisor(here):
    """0 where a formula holds, elsewhere 65,535."""
    return choice(here, [0, 0], [0, 65535])


def lacking(here):
    """A true formula that has no value where another holds."""
    return [12, 5, 0, 7] + divisor(here) + [0, 7]


def value_lacks(here, value):
    return [5] + value + divisor(here)


def formula_lacks(here, formula):
    return [15] + formula + lacking(here)


def sums(depth, value):
    """A value of that depth more, the same."""
    return [3, 0, 0] * depth + value


def values_that_lack(here, value):
    """The same value by many terms, none with a value where a formula holds."""
    lack = lacking(here)
    return {
        "divisor": value_lacks(here, value),
        "of_dividend": [5] + value_lacks(here, value) + [0, 65535],
        "of_divisor": [5] + value + [3, 0, 65535, 5, 0, 0] + divisor(here),
        "of_sum": [3] + value + [5, 0, 0] + divisor(here),
        "of_sum_first": [3, 5, 0, 0] + divisor(here) + value,
        "of_difference": [4] + value + [5, 0, 0] + divisor(here),
        "taken_first": choice(here, [5] + value + [0, 0], value),
        "taken_second": choice([14] + here, value, [5] + value + [0, 0]),
        "in_choice": choice(lack, value, value),
        "in_choice_not": choice([14] + lack, value, value),
        "in_choice_and": choice([15, 11] + lack, value, value),
        "in_choice_or": choice([16, 10] + lack, value, value),
        "nested": sums(5, choice([16, 10, 14, 15, 11] + lack, value, value)),
        "deep": sums(25, value_lacks(here, value)),
    }


def formulas_that_lack(here, formula):
    lack = lacking(here)
    missing = value_lacks(here, [0, 7])
    return {
        "and": [15] + formula + lack,
        "and_first": [15] + lack + formula,
        "and_false": [16] + formula + [15, 11] + lack,
        "and_false_last": [16] + formula + [15] + lack + [11],
        "or_true": [15] + formula + [16, 10] + lack,
        "or_true_last": [15] + formula + [16] + lack + [10],
        "not": [15] + formula + [14, 14] + lack,
        "less": [15] + formula + [13] + missing + [0, 8],
        "less_last": [15] + formula + [13, 0, 6] + missing,
        "equal_both": [15] + formula + [12] + missing + missing,
        "taken_first": [15] + formula + [12, 0, 7] + choice(here, NEVER, [0, 7]),
        "taken_second": [15] + formula + [12, 0, 7] + choice([14] + here, [0, 7], NEVER),
        "in_choice": [15] + formula + [12, 0, 7] + choice(lack, [0, 7], [0, 7]),
        "nested": [14] * 4 + [16] + formula + [15, 11, 12, 0, 0] + choice([16, 10] + lack, [0, 0], [0, 0]),
        "deep": [14] * 24 + formula_lacks(here, formula),
    }


def values_that_do_not(here, value):
    """The same value with a remainder by zero that is nowhere evaluated."""
    return {
        "never_first": choice([11], NEVER, value),
        "never_second": choice([10], value, NEVER),
        "guarded": choice([12, *divisor(here), 0, 0], value, [5] + value + divisor(here)),
        "guarded_first": choice([14] + here, value_lacks(here, value), value),
        "guarded_twice": choice([10], choice([11], NEVER, value), choice([10], NEVER, NEVER)),
    }


def formulas_that_do_not(here, formula):
    return {name: [15] + formula + [12, 0, 7] + term for name, term in values_that_do_not(here, [0, 7]).items()}


MAPPING = ([6, 12, 1, 0, 0, 0, 0, 0, 0, 1], [1, 1])
MEASURE = [6, 12, 1, 0, 0, 1, 0, 1, 0, 0]


def of_row(rows, row, part, term):
    return with_row(rows, row, **{part: term})


# Each place of the wide table: whether it has a formula, its term, and the table with another one.
PLACES = {
    "invariant": (True, [10], lambda term: changed(WIDE, 11, [5] + term)),
    "mapping_first": (False, MAPPING[0], lambda term: changed(WIDE, 12, [6] + term + MAPPING[1])),
    "mapping_last": (False, MAPPING[1], lambda term: changed(WIDE, 12, [6] + MAPPING[0] + term)),
    "measure": (False, MEASURE, lambda term: changed(WIDE, 13, [7] + term)),
    "mark": (True, [10], lambda term: marked(WIDE, term)),
}
for sort, table in (("row", ROWS), ("spec_row", SPEC_ROWS)):
    for number, (_, *terms_) in table.items():
        for part, term in zip(("condition", "data", "phase", "price"), terms_):
            if (sort, number, part) != ("row", 2, "data"):
                PLACES["%s%d_%s" % (sort, number, part)] = (
                    part == "condition", term, lambda term, table=table, number=number, part=part: of_row(table, number, part, term))


def at_mapped(state):
    return (min(state[0], 1), state[1])


def lacks_at_places():
    """A value is missing in each place in turn, in the first, a middle and the last state; where a row is enabled and where it is not."""
    for place, (is_formula, term, table) in PLACES.items():
        lacks = formula_lacks if is_formula else value_lacks
        for name, state in HERE.items():
            state = at_mapped(state) if place.startswith("spec") else state
            put("c10_%s_%s" % (place, name), table(lacks(at_state(*state), term)))
        put("c10_%s_everywhere" % place, table(lacks([10], term)))
        # Rows are enabled in one phase or two; in the other ones only a condition and a mark are looked at.
        for phase in range(3):
            put("c10_%s_phase_%d" % (place, phase), table(lacks([12, 1, 0, 0, phase], term)))


def lacks_by_terms():
    for place, state in (("invariant", (0, 3)), ("mapping_first", (0, 3)), ("mapping_last", (0, 3)), ("measure", (0, 3)), ("mark", (0, 3)),
                         ("row2_condition", (0, 3)), ("row3_condition", (2, 3)), ("row3_data", (2, 3)), ("row2_phase", (1, 3)),
                         ("row4_price", (2, 6)), ("spec_row3_condition", (1, 3)), ("spec_row1_data", (0, 3)), ("spec_row3_price", (1, 3))):
        is_formula, term, table = PLACES[place]
        here = at_state(*state)
        for name, other in (formulas_that_lack if is_formula else values_that_lack)(here, term).items():
            put("c10_%s_by_%s" % (place, name), table(other))
        for name, other in (formulas_that_do_not if is_formula else values_that_do_not)(here, term).items():
            put("c10_%s_has_%s" % (place, name), table(other))


def lacks_for_a_sum():
    for place, span, phase in (("row1_condition", 8, 0), ("row2_condition", 5, 0), ("row3_condition", 3, 2), ("row1_data", 8, 0),
                               ("row3_data", 3, 2), ("row1_price", 8, 0), ("row2_phase", 5, 1), ("mark", 5, 1),
                               ("spec_row1_condition", 8, 0), ("spec_row3_data", 3, 1), ("spec_row1_price", 8, 0)):
        is_formula, term, table = PLACES[place]
        for s in sorted({0, span // 2, span - 1, span}):
            put("c10_%s_sum_%d" % (place, s), table((formula_lacks if is_formula else value_lacks)(at_sum(phase, 3, s), term)))
    # Nothing but the divisor reads the sum value.
    for span in (1, 2, 256):
        for name, at in (("first", 0), ("last", span - 1), ("none", span)):
            by = [4, 2, 0, at]
            divides, has = [1, span, 10, 5, 0, 0, *by, 0, 0], [1, span, 10, 0, 0, 0, 0]
            put("c10_by_sum_data_%d_%s" % (span, name), small(rows=[divides], spec_rows=[has]))
            put("c10_by_sum_spec_data_%d_%s" % (span, name), small(rows=[has], spec_rows=[divides]))
            put("c10_by_sum_mark_%d_%s" % (span, name), marked(small(rows=[[0, span, 10, 0, 0, 0, 0]]), [14, 12, 5, 0, 0, *by, 0, 0]))
            never = [0, span, 11, 0, 0, 0, 0]
            put("c10_by_sum_mark_not_enabled_%d_%s" % (span, name), marked(small(rows=[never]), [12, 5, 0, 0, *by, 0, 0]))
            put("c10_by_sum_condition_%d_%s" % (span, name), small(rows=[[1, span, 14, 12, 5, 0, 0, *by, 0, 0, 0, 0, 0, 0]]))
            # The row is enabled for the sum value that it divides by, or for the others.
            put("c10_by_sum_enabled_%d_%s" % (span, name), marked(small(rows=[[0, span, 12, 2, 0, at, 0, 0, 5, 0, 0, *by]]), [11]))
            put("c10_by_sum_not_enabled_%d_%s" % (span, name), marked(small(rows=[[0, span, 14, 12, 2, 0, at, 0, 0, 5, 0, 0, *by]]), [11]))


def lacks_at_initial_state():
    """The invariant and the mapping are criterion 1's there, the measure and all else criterion 10's."""
    for name, initial in HERE.items():
        start = changed(changed(WIDE, 0, [1, 3, initial[0]]), 1, [1, 8, initial[1]])
        start = changed(changed(start, 2, [2, 2, min(initial[0], 1)]), 3, [2, 8, initial[1]])
        here = at_state(*initial)
        put("c10_start_%s_invariant" % name, changed(start, 11, [5] + formula_lacks(here, [10])))
        put("c10_start_%s_mapping_first" % name, changed(start, 12, [6] + value_lacks(here, MAPPING[0]) + MAPPING[1]))
        put("c10_start_%s_mapping_last" % name, changed(start, 12, [6] + MAPPING[0] + value_lacks(here, MAPPING[1])))
        put("c10_start_%s_measure" % name, changed(start, 13, [7] + value_lacks(here, MEASURE)))
        put("c10_start_%s_mark" % name, marked(start, lacking(here)))
        elsewhere = [14] + here
        put("c10_start_%s_invariant_elsewhere" % name, changed(start, 11, [5] + formula_lacks(elsewhere, [10])))
        put("c10_start_%s_mapping_elsewhere" % name, changed(start, 12, [6] + MAPPING[0] + value_lacks(elsewhere, MAPPING[1])))
    # Criterion 1 fails there, and state 0 lacks a value.
    late = small(parameters=[(2, 1)], measure=value_lacks([12, 1, 0, 0, 0], [0, 0]))
    put("c10_start_last_measure_of_first", late)
    put("c1_before_10_invariant", changed(late, 2, [5, 12, 1, 0, 0, 0]))
    put("c1_before_10_mapping", changed(late, 3, [6, 1, 0]))


def lacks_at_next_state():
    """Four states, with steps from state 1: what lacks a value at state 3 is a failure of the step that leads there, which comes before."""
    other = [0, 1, 11, 0, 0, 0, 0]
    step = [2, 12, 1, 0, 0, 1, 0, 0, 6, 12, 2, 0, 1, 0, 3, 0, 2]
    from_above = [2, 12, 1, 0, 0, 4] + step[6:]
    here = [12, 1, 0, 0, 3]
    for name in ("nothing", "invariant", "mapping", "measure", "measure_invariant", "measure_mapping", "invariant_mapping"):
        def ways(size, row, mapping=(0, 0), measure=(4, 0, 5, 1, 0), **more):
            parts = {
                "invariant": formula_lacks(here, [10]) if "invariant" in name else [10],
                "mapping": value_lacks(here, [*mapping]) if "mapping" in name else mapping,
                "measure": value_lacks(here, [*measure]) if "measure" in name else measure,
            }
            return small(parameters=[(size, 0)], rows=[other, row], **parts, **more)

        put("c10_next_internal_" + name, ways(4, [0] + step))
        put("c10_next_marked_" + name, marked(ways(4, [0] + step), [11], [10]))
        put("c10_next_unmarked_" + name, marked(ways(4, [0] + step), [10], [11]))
        put("c10_next_unmarked_once_" + name, marked(ways(4, [0] + step), [10], FIRST_SUM))
        put("c10_next_from_above_" + name, ways(5, [0] + from_above, measure=[1, 0]))
        put("c10_next_visible_" + name, ways(4, [1] + step, mapping=choice([12, 1, 0, 0, 1], [0, 1], [0, 0]), spec_parameters=[(2, 0)],
                                             spec_rows=[[1, 2, 12, 1, 0, 0, 1, 0, 0, 0, 0]]))
    # Out of the sizes, where the invariant would lack a value.
    leaves = [12, 1, 0, 0, 2, 0, 0, 0, 4]
    put("c10_next_out_of_size", small(parameters=[(4, 0)], rows=[[0, 1] + leaves], invariant=lacking([12, 1, 0, 0, 4])))
    put("c10_next_out_of_size_visible", small(parameters=[(4, 2)], rows=[[1, 1] + leaves], invariant=lacking([12, 1, 0, 0, 4])))


def order_of_10():
    """In each state before the others; a lower state's failure comes first."""
    fails = {
        "2": lambda here: changed(WIDE, 12, [6] + MAPPING[0] + choice(here, [0, 8], [1, 1])),
        "3": lambda here: with_row(ROWS, 4, phase=choice(here, [0, 3], [1, 0])),
        "4": lambda here: with_row(ROWS, 2, price=choice(here, [5, 3, 1, 1, 0, 1, 0, 8], [1, 1])),
        "5": lambda here: with_row(ROWS, 2, phase=choice(here, [0, 1], [0, 2])),
        "6": lambda here: with_row(SPEC_ROWS, 2, condition=[14] + here),
        "7": lambda here: with_row(ROWS, 4, condition=[14] + here),
        "8": lambda here: with_row(ROWS, 4, data=choice(here, [0, 99], [0, 3])),
        "9": lambda here: with_row(ROWS, 4, price=choice(here, [5, 3, 1, 1, 0, 1, 0, 8], [1, 1])),
    }
    phases = {"4": 1, "5": 1, "6": 0, "7": 0}
    for criterion, table in fails.items():
        phase = phases.get(criterion, 0)
        failing = table(at_state(phase, 4))
        put("c10_none_with_%s" % criterion, failing)
        for name, price in (("lower", 3), ("same", 4), ("higher", 5)):
            here = at_state(phase, price)
            put("c10_%s_than_%s_measure" % (name, criterion), changed(failing, 13, [7] + value_lacks(here, MEASURE)))
            put("c10_%s_than_%s_mark" % (name, criterion), marked(failing, lacking(here)))
            extra = [4, 12, 1, 11, *value_lacks(here, [0, 0]), 1, 0, 1, 1]
            put("c10_%s_than_%s_not_enabled" % (name, criterion), failing[:11] + [extra] + failing[11:])
            condition = [4, 12, 1, 15, 11, *lacking(here), 0, 0, 1, 0, 1, 1]
            put("c10_%s_than_%s_spec_condition" % (name, criterion), failing[:11] + [condition] + failing[11:])


def lacks_in_specification():
    """Rows of actions that the implementation hasn't, and mapped states out of their sizes."""
    def alone(condition, data=(0, 0), nexts=(0, 0), mapping=(1, 0), **more):
        row = [1, 3, *condition, *data, *nexts]
        return small(parameters=[(4, 0)], spec_parameters=[(4, 0)], spec_rows=[row], mapping=mapping, **more)

    three = [12, 1, 0, 0, 3]
    put("c10_alone_not_enabled", alone([11]))
    put("c10_alone_condition", alone([15, 11] + lacking(three)))
    put("c10_alone_condition_last_sum", alone([15, 11] + lacking([15, 12, 2, 0, 2] + three)))
    put("c10_alone_data_not_enabled", alone([11], NEVER))
    put("c10_alone_next_not_enabled", alone([11], nexts=NEVER))
    put("c10_alone_data", alone(three, NEVER))
    put("c10_alone_next", alone(three, nexts=NEVER))
    put("c10_alone_both", alone(three, NEVER, NEVER))
    put("c10_alone_data_outside_invariant", alone(three, NEVER, invariant=[13, 1, 0, 0, 3]))
    put("c10_alone_data_not_mapped_to", alone(three, NEVER, mapping=choice(three, [0, 1], [1, 0])))
    # At the mapped numbers, in size or not.
    for name, mapped in (("size", 4), ("65535", 65535)):
        out = choice(three, [0, mapped], [1, 0])
        here = [12, 1, 0, 0, mapped]
        put("c10_out_%s" % name, alone([11], mapping=out))
        put("c10_out_%s_condition" % name, alone([15, 11] + lacking(here), mapping=out))
        put("c10_out_%s_data" % name, alone(here, NEVER, mapping=out))
        put("c10_out_%s_next" % name, alone(here, nexts=NEVER, mapping=out))
        put("c10_out_%s_next_not_enabled" % name, alone([14, 10], nexts=NEVER, mapping=out))
        put("c10_out_%s_at_implementation" % name, alone([15, 11] + lacking(three), mapping=out))
    put("c10_out_wraps", alone([15, 11, 12, 0, 0, 5, 0, 0, 3, 1, 0, 0, 1], mapping=choice(three, [0, 65535], [1, 0])))
    # Not at a focus point: the specification's row is looked at all the same.
    step = [0, 1, 13, 1, 0, 0, 3, 0, 0, 3, 1, 0, 0, 1]
    for name, formula in (("marked", [10]), ("unmarked", [11])):
        for part, row in (("nothing", [1, 1, 11, *NEVER, 0, 0]), ("condition", [1, 1, 15, 11, *lacking([10]), 0, 0, 0, 0]),
                          ("data", [1, 1, 10, *NEVER, 0, 0]), ("next", [1, 1, 10, 0, 0, *NEVER])):
            table = small(parameters=[(4, 0)], rows=[step], spec_rows=[row], measure=[4, 0, 3, 1, 0])
            put("c10_no_focus_%s_%s" % (name, part), marked(table, formula))


def outside_the_invariant():
    """State 3 of 4 is outside; nothing but the invariant has a value there."""
    out = [12, 1, 0, 0, 3]
    rows = [[0, 2, *formula_lacks(out, [12, 1, 0, 0, 1]), 0, 0, *value_lacks(out, [0, 0])],
            [1, 2, *formula_lacks(out, [14, 12, 1, 0, 0, 1]), *value_lacks(out, [2]), *value_lacks(out, [2])]]
    spec_rows = [[1, 2, *formula_lacks(out, [10]), *value_lacks(out, [2]), *value_lacks(out, [0, 0])]]
    for name, invariant in (("outside", [14] + out), ("inside", [10]), ("lacking", [12, 5, 0, 0, 4, 0, 3, 1, 0, 0, 0]),
                            ("false_and_lacking", [15, 14] + out + lacking(out)), ("false", [11])):
        table = small(parameters=[(4, 0)], rows=rows, spec_rows=spec_rows, invariant=invariant, mapping=value_lacks(out, [0, 0]),
                      measure=value_lacks(out, [1, 0]))
        put("c10_invariant_" + name, marked(table, lacking(out)))
    put("c10_invariant_lacks_outside_reach", small(parameters=[(4, 0)], invariant=[15, 13, 1, 0, 0, 3] + lacking(out)))


def zeros():
    """What is 0 and divides, and what is not."""
    def data(dividend, by):
        return small(parameters=[(2, 0)], rows=[[1, 1, 10, 5, *dividend, *by, 1, 0]], spec_rows=[[1, 1, 10, *dividend, 0, 0]])

    for dividend in (0, 1, 65535):
        put("c10_%d_mod_0" % dividend, data([0, dividend], [0, 0]))
    for name, by in (("sum", [3, 0, 65535, 0, 1]), ("difference", [4, 0, 9, 0, 9]), ("parameter", [1, 0]),
                     ("difference_of_parameter", [4, 1, 0, 1, 0]), ("remainder", [5, 0, 6, 0, 3]),
                     ("remainder_by_parameter", [5, 0, 9, 1, 0]), ("choice", [6, 10, 0, 0, 0, 1]),
                     ("difference_to_1", [4, 0, 1, 1, 0]), ("sum_value", [2])):
        put("c10_by_" + name, data([0, 0], by))
    for name, by in (("difference", [4, 0, 0, 0, 1]), ("choice", [6, 11, 0, 0, 0, 9]), ("sum", [3, 1, 0, 0, 65534]), ("65535", [0, 65535])):
        put("c10_has_by_" + name, data([0, 7], by))
    never = [12, *NEVER, *NEVER]
    put("c10_never_loads", small(rows=[[0, 1, *never, 0, 0, *NEVER]], invariant=never, mapping=NEVER, measure=NEVER))
    put("c10_only_measure", small(measure=NEVER))
    put("c10_only_measure_marks_too", marked(small(rows=[[0, 1, 11, 0, 0, 0, 0]], measure=NEVER), never))


def slots_of_pumps():
    """Pumps (4) and ticket (6): a car with that ticket goes to the slot ticket mod pumps. Row 2 sets how many pumps there are."""
    slot, fewer = [5, 1, 1, 1, 0], [3, 0, 1, 5, 2, 0, 3]
    keeps = [13, 0, 0, 1, 0]

    def pumps(slot=slot, sets=fewer, invariant=keeps, condition=(10,), initial=3, measure=(0, 0)):
        rows = [[1, 6, *condition, *slot, 1, 0, 2], [2, 4, 10, 2, *sets, 1, 1]]
        both = {"parameters": [(4, initial), (6, 0)], "spec_parameters": [(4, initial), (6, 0)], "rows": rows, "spec_rows": rows}
        return small(**both, invariant=invariant, mapping=(1, 0, 1, 1), measure=measure)

    guarded = choice([12, 1, 0, 0, 0], [0, 0], slot)
    put("c10_pumps", pumps())
    put("c10_pumps_any", pumps(invariant=[10]))
    put("c10_pumps_any_guarded", pumps(slot=guarded, invariant=[10], sets=[2]))
    put("c10_pumps_any_sets_0", pumps(invariant=[10], sets=[2]))
    put("c10_pumps_sets_0", pumps(sets=[2]))
    put("c10_pumps_start_0", pumps(initial=0))
    put("c10_pumps_condition", pumps(condition=[13, *slot, 0, 2]))
    put("c10_pumps_condition_any", pumps(condition=[15, *keeps, 13, *slot, 0, 2], invariant=[10]))
    put("c10_pumps_measure", pumps(measure=slot))
    put("c10_pumps_measure_any", pumps(measure=slot, slot=guarded, invariant=[10]))
    put("c10_pumps_invariant_divides", pumps(invariant=[15, *keeps, 13, *slot, 0, 4]))
    put("c10_pumps_invariant_guards", pumps(invariant=[15, *keeps, 13, *guarded, 0, 4]))


# Measures: a missing value is 18, but for the measure's own.

def runs_that_lack():
    here = [12, 1, 0, 0, 2]
    chain = edges(4, (3, 2), (2, 1), (1, 0))[:-1]
    for where, table in (("", chain), ("_outside", edges(4, (1, 0), outside=[2])[:-1])):
        table = changed(table, -1, [7, 1, 0])
        rows, invariant, mapping, measure = internal_rows(table), table[-3], table[-2], table[-1]

        def both(condition, data, nexts, spec_condition):
            spec = [4, 1, 2, *spec_condition, 0, 0, 0, 0]
            return table[:2] + [[3, 1, 2, *condition, *data, *nexts]] + table[2:-3] + [spec] + table[-3:]

        zero, stays = [0, 0], [1, 0]
        put("o_lacks_nothing" + where, table)
        put("o_lacks_invariant" + where, changed(table, -3, [5] + formula_lacks(here, invariant[1:])))
        put("o_lacks_mapping" + where, changed(table, -2, [6] + value_lacks(here, mapping[1:])))
        put("o_lacks_measure" + where, changed(table, -1, [7] + value_lacks(here, measure[1:])))
        put("o_lacks_condition" + where, both([15, 11] + lacking(here), zero, stays, [11]))
        put("o_lacks_condition_last_sum" + where, both([15, 11] + lacking([15, 12, 2, 0, 1] + here), zero, stays, [11]))
        put("o_lacks_data" + where, both([10], value_lacks(here, zero), stays, [10]))
        put("o_lacks_data_not_enabled" + where, both([14] + here, value_lacks(here, zero), stays, [10]))
        put("o_lacks_next" + where, both([10], zero, value_lacks(here, stays), [10]))
        put("o_lacks_next_not_enabled" + where, both([14] + here, zero, value_lacks(here, stays), [10]))
        put("o_lacks_spec_condition" + where, both([11], zero, stays, [15, 11] + lacking([10])))
        for part, row in (("data", [10, *NEVER, 0, 0]), ("next", [10, 0, 0, *NEVER]), ("data_not_enabled", [11, *NEVER, 0, 0])):
            put("o_lacks_spec_%s%s" % (part, where), table[:-3] + [[4, 2, 2, *row]] + table[-3:])
        for i in range(rows):
            put("o_lacks_mark_%d%s" % (i, where), marked(table, *[[10]] * i, lacking(here), *[[10]] * (rows - i - 1)))
    put("o_lacks_measure_everywhere", changed(chain, -1, [7] + NEVER))
    put("o_lacks_measure_and_leaves", changed(edges(4, (3, 2), (1, 4)), -2, [7] + NEVER))
    loop = edges(4, *along(3, 2, 3))
    put("o_lacks_measure_loop", changed(loop, -2, [7] + NEVER))
    put("o_lacks_mapping_loop", changed(loop, -3, [6] + value_lacks([12, 1, 0, 0, 1], [0, 0])))
    put("o_lacks_mark_loop", changed(loop, -1, [8] + lacking([12, 1, 0, 0, 1]) + [10]))
    for name, first, second in (("taken", NEVER, [0, 2]), ("not_taken", [0, 2], NEVER)):
        put("o_lacks_where_" + name, changed(chain, 2, [3, 0, 1, 12, 1, 0, 0, 3, 0, 0] + choice([12, 1, 0, 0, 3], first, second)))
    # Divides by the sum value, enabled for those above 0 or for all.
    by_sum = [0, 0, 4, 1, 0, 3, 0, 1, 5, 4, 1, 0, 0, 1, 2]
    above = [13, 0, 0, 1, 0]
    put("o_lacks_next_of_0", small(parameters=[(6, 0)], rows=[[0, 4, *above, *by_sum]], measure=[1, 0]))
    put("o_lacks_next_of_0_not_enabled", small(parameters=[(6, 0)], rows=[[0, 4, 15, *above, 13, 0, 0, 2, *by_sum]], measure=[1, 0]))


# Verdict 3: an internal row is enabled in the initial state.

def down(*conditions, start=3, states=6, span=1, visible=(0,)):
    """States from 0 on, of which one is the initial one. An internal row for each condition, which leads to the state below; and rows of
    visible actions, enabled everywhere, before those with these numbers."""
    rows = [[0, span, *condition, 0, 0, *choice([12, 1, 0, 0, 0], [0, 0], [4, 1, 0, 0, 1])] for condition in conditions]
    for action, at in enumerate(visible, 1):
        rows.insert(at + action - 1, [action, 1, 10, 0, action, 1, 0])
    spec_rows = [[action, 1, 10, 0, action, 0, 0] for action, _ in enumerate(visible, 1)]
    return small(parameters=[(states, start)], rows=rows, spec_rows=spec_rows, measure=[1, 0])


def in_state(number):
    return [12, 1, 0, 0, number]


def first_steps():
    here, elsewhere = in_state(3), [15, 14, *in_state(3), 14, *in_state(0)]
    put("r_no_rows", small())
    put("r_visible_alone", down())
    put("r_spec_rows_alone", small(spec_rows=[[1, 1, 11, 0, 0, 0, 0]]))
    put("r_enabled_everywhere", down([14, *in_state(0)]))
    put("r_enabled_nowhere", down([11]))
    for start in (0, 1, 3, 5):
        for state in (1, 2, 3, 4, 5):
            put("r_start_%d_enabled_in_%d" % (start, state), down(in_state(state), start=start))
        others = [15, 14, *in_state(start), 14, *in_state(0)]
        put("r_start_%d_enabled_elsewhere" % start, down(others, start=start))
    # Sum values.
    for span in (1, 2, 3, 255, 256):
        for s in sorted({0, 1, span // 2, span - 1, span}):
            put("r_span_%d_sum_%d" % (span, s), down([15, 12, 2, 0, s, *here], span=span))
        put("r_span_%d_elsewhere" % span, down([15, 12, 2, 0, span - 1, *elsewhere], span=span))
    # Several rows, among visible ones.
    for count in (2, 3, 30):
        for at in sorted({0, 1, count - 1, count}):
            conditions = [here if i == at else elsewhere for i in range(count)]
            put("r_rows_%d_at_%d" % (count, at), down(*conditions))
            put("r_rows_%d_at_%d_among_visible" % (count, at), down(*conditions, visible=(1, count)))
    put("r_rows_all", down(*[here] * 32, visible=()))
    put("r_rows_spans", small(parameters=[(6, 3)], rows=[[0, 2, 15, 12, 2, 0, 2, *here, 0, 0, 0, 0], [0, 256, 15, 12, 2, 0, 255, *here, 0, 0, 0, 0]],
                              measure=[1, 0]))
    put("r_rows_spans_none", small(parameters=[(6, 3)], rows=[[0, 2, 15, 12, 2, 0, 2, *here, 0, 0, 0, 0],
                                                              [0, 255, 15, 12, 2, 0, 255, *here, 0, 0, 0, 0]], measure=[1, 0]))


def first_steps_and_marks():
    """Whether a step is marked, and where it leads, makes no difference."""
    here, elsewhere = in_state(3), [15, 14, *in_state(3), 14, *in_state(0)]
    loop = small(parameters=[(6, 3)], rows=[[1, 1, 10, 0, 7, 1, 0], [0, 1, *here, 0, 0, 1, 0]], spec_rows=[[1, 1, 10, 0, 7, 0, 0]])
    for name, formula in (("all", [10]), ("none", [11]), ("here", here), ("elsewhere", elsewhere), ("by_sum", [12, 2, 0, 0]),
                          ("by_other_sum", [12, 2, 0, 1])):
        put("r_mark_" + name, marked(down(here), formula))
        put("r_mark_%s_enabled_elsewhere" % name, marked(down(elsewhere), formula))
        put("r_loop_mark_" + name, marked(loop, formula))
    for first, second in (("marked", "unmarked"), ("unmarked", "marked"), ("unmarked", "unmarked")):
        formulas = [[10] if sort == "marked" else [11] for sort in (first, second)]
        put("r_rows_%s_%s" % (first, second), marked(down(here, here), *formulas))
        put("r_rows_%s_%s_first" % (first, second), marked(down(here, elsewhere), *formulas))
        put("r_rows_%s_%s_second" % (first, second), marked(down(elsewhere, here), *formulas))
        put("r_rows_%s_%s_none" % (first, second), marked(down(elsewhere, elsewhere), *formulas))
    for s in (0, 1, 255):
        put("r_sum_%d_marked" % s, marked(down(here, span=256), [12, 2, 0, s]))
        put("r_sum_%d_unmarked" % s, marked(down(here, span=256), [14, 12, 2, 0, s]))
        put("r_sum_%d_enabled_unmarked" % s, marked(down([15, 12, 2, 0, s, *here], span=256), [14, 12, 2, 0, s]))
    # A ring of steps that aren't marked, also within the invariant; steps that lead to the initial state, within the invariant and outside.
    ring = [[0, 1, 10, 0, 0, 5, 3, 1, 0, 0, 1, 0, 6]]
    put("r_ring", marked(small(parameters=[(6, 3)], rows=ring), [11]))
    put("r_ring_in_invariant", marked(small(parameters=[(6, 3)], rows=[[0, 1, 10, 0, 0, 5, 3, 1, 0, 0, 1, 0, 4]], invariant=[13, 1, 0, 0, 4]), [11]))
    put("r_leads_to_start", marked(small(parameters=[(6, 3)], rows=[[0, 1, 14, *here, 0, 0, 0, 3]]), [11]))
    put("r_enabled_outside_invariant", small(parameters=[(6, 3)], rows=[[0, 1, 14, *here, 0, 0, 0, 3]], invariant=here))
    for name in ("retry", "chain"):
        table = {"retry": RETRY, "chain": CHAIN}[name]
        for start in range(table[0][1]):
            formulas = {"retry": [[12, 2, 0, 1]], "chain": CHAIN_MARKS}[name]
            put("r_%s_start_%d" % (name, start), marked(changed(table, 0, [1, table[0][1], start]), *formulas))


def first_steps_of_wide():
    """The wide table starts where its internal row is enabled: 3 if it is accepted. Criteria fail in a late, a middle or an early state."""
    def start(table, phase, price):
        lines = [[1, 3, phase], [1, 8, price], [2, 2, min(phase, 1)], [2, 8, price]]
        return lines + table[4:]

    for phase in range(3):
        for price in (0, 4, 7):
            put("r_wide_start_%d_%d" % (phase, price), start(WIDE, phase, price))
    put("r_wide_fails_1_invariant", changed(start(WIDE, 1, 4), 11, [5, 14] + at_state(1, 4)))
    put("r_wide_fails_1_mapping", changed(start(WIDE, 1, 4), 2, [2, 2, 0]))
    put("r_wide_fails_1_missing", changed(start(WIDE, 1, 4), 11, [5] + lacking(at_state(1, 4))))
    fails = {
        "2": (0, lambda here: changed(WIDE, 12, [6] + MAPPING[0] + choice(here, [0, 8], [1, 1]))),
        "3": (2, lambda here: with_row(ROWS, 4, phase=choice(here, [0, 3], [1, 0]))),
        "4": (1, lambda here: with_row(ROWS, 2, price=choice(here, [5, 3, 1, 1, 0, 1, 0, 8], [1, 1]))),
        "5": (1, lambda here: with_row(ROWS, 2, phase=choice(here, [0, 1], [0, 2]))),
        "6": (1, lambda here: with_row(SPEC_ROWS, 2, condition=[14] + here)),
        "7": (2, lambda here: with_row(ROWS, 4, condition=[14] + here)),
        "8": (2, lambda here: with_row(ROWS, 4, data=choice(here, [0, 99], [0, 3]))),
        "9": (2, lambda here: with_row(ROWS, 4, price=choice(here, [5, 3, 1, 1, 0, 1, 0, 8], [1, 1]))),
        "10": (2, lambda here: marked(WIDE, lacking(here))),
    }
    for criterion, (phase, table) in fails.items():
        for name, price in (("late", 7), ("middle", 4), ("early", 0)):
            put("r_wide_fails_%s_%s" % (criterion, name), start(table(at_state(phase, price)), 1, 4))
    # A condition that has a value, or has none, in the initial state.
    here = at_state(1, 4)
    for name, formula in formulas_that_do_not(here, ROWS[2][1]).items():
        put("r_wide_condition_has_" + name, start(with_row(ROWS, 2, condition=formula), 1, 4))
    for name, formula in formulas_that_lack(here, ROWS[2][1]).items():
        put("r_wide_condition_by_" + name, start(with_row(ROWS, 2, condition=formula), 1, 4))
    for name, value in values_that_do_not(in_state(3), [0, 7]).items():
        put("r_condition_%s_holds" % name, marked(down([12, 0, 7, *value]), [11]))
        put("r_condition_%s_does_not" % name, marked(down([12, 0, 8, *value]), [11]))


def first_steps_in_many_states():
    for sizes in ((256, 256), (32768, 2), (4,) * 8):
        for name, number in (("first", 0), ("middle", 32769), ("last", 65535)):
            values = state_of(number, sizes)
            here = [10]
            for i, value in enumerate(values):
                here = [15] + here + [12, 1, i, 0, value]
            stays = [x for i in range(len(sizes)) for x in (1, i)]
            title = "r_s_%s_%s" % (name, "_".join(map(str, sizes)))
            for where, condition in (("here", here), ("elsewhere", [14] + here)):
                rows = [[0, 1, *condition, 0, 0, *stays]]
                put("%s_%s" % (title, where), marked(small(parameters=list(zip(sizes, values)), rows=rows), [11]))


for part in (long_texts, bad_columns, many_fields, shapes, bounds, terms, actions, together, criteria, many_states, all_marked,
             marks_of_designs, count_of_marks, place_of_marks, terms_of_marks, fields_of_marks, faults_with_marks, marks_by_sum,
             order_of_marks, focus_points, marks_and_criteria, wide_marks, runs, loops, steps_that_leave, long_runs, lacks_at_places,
             lacks_by_terms, lacks_for_a_sum, lacks_at_initial_state, lacks_at_next_state, order_of_10, lacks_in_specification,
             outside_the_invariant, zeros, slots_of_pumps, runs_that_lack, first_steps, first_steps_and_marks, first_steps_of_wide,
             first_steps_in_many_states):
    part()
for name, table in made.items():
    with open(os.path.join(directory, name + ".txt"), "wb") as file:
        file.write(table)
print("tables.py: %d tables" % len(made))
