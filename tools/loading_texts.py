#!/usr/bin/env python3
"""Makes the texts of the program crate test_loading: its data/, args and stdout.

Each case is a name, the number that the text is turned down with (0: it is loaded) and the text. The numbers are said here,
by hand, from the list of faults; nothing here looks for a fault. Run from the repository's root after a change of the cases:

    python3 tools/loading_texts.py
"""
import os
import shutil

CRATE = "crates/test_loading"

PUMP = [[int(field) for field in line.split()] for line in """
1 3 0 / 1 4 0 / 2 2 0 / 2 4 0 / 3 1 4 12 1 0 0 0 2 0 1 2 / 3 0 1 12 1 0 0 1 0 0 0 2 1 1 / 3 2 1 12 1 0 0 2 1 1 0 0 1 1 /
4 1 4 12 1 0 0 0 2 0 1 2 / 4 2 1 12 1 0 0 1 1 1 0 0 1 1 / 5 10 / 6 6 12 1 0 0 0 0 0 0 1 1 1 / 7 6 12 1 0 0 1 0 1 0 0
""".split("/")]

# The lines of the pump table, by what they are.
IMPL_PARAMETER, SPEC_PARAMETER, IMPL_ROW, INTERNAL_ROW, SPEC_ROW, LAST_SPEC_ROW, INVARIANT, MAPPING, MEASURE = 0, 3, 4, 5, 7, 8, 9, 10, 11

cases = []


def text_of(lines):
    """The text of lines of fields."""
    return b"".join(b"".join(b"%6d" % field for field in line) + b"\n" for line in lines)


def case(name, number, text):
    """A text, by its lines of fields or by its bytes."""
    lines = None if isinstance(text, bytes) else text
    cases.append((name, number, lines, text if lines is None else text_of(lines)))


def pump(*edits):
    """The pump table with some of its lines replaced: (line, fields), or left out: (line, None)."""
    lines = [list(line) for line in PUMP]
    for at, fields in edits:
        lines[at] = fields
    return [line for line in lines if line is not None]


def with_field(line, k, n):
    """A line with field k replaced by n."""
    return line[:k] + [n] + line[k + 1:]


def conjunction(leaves):
    """A formula of 2 * leaves - 1 fields, as flat as can be."""
    if leaves == 1:
        return [10]
    return [15] + conjunction(leaves // 2) + conjunction(leaves - leaves // 2)


def negations(depth):
    """A formula of that depth."""
    return [14] * (depth - 1) + [10]


def choice(depth):
    """A value of that depth, deepest in its formula."""
    return [6] + negations(depth - 1) + [0, 0, 0, 0]


def sums(depth):
    """A value of that depth, deepest in its last part."""
    return [0, 1] if depth == 1 else [3, 0, 1] + sums(depth - 1)


# ---- each fault in the first, a middle and the last line that can have it

def broken(at):
    """Makes the last field of a line no field."""
    def edit(text):
        lines = text.split(b"\n")
        lines[at] = lines[at][:-1] + b"x"
        return b"\n".join(lines)
    return edit


def replaced(at, change):
    """Changes a line's fields."""
    return lambda lines: lines[:at] + [change(lines[at])] + lines[at + 1:]


def longer(line):
    return line + [0] * (257 - len(line))


def field(k, n):
    return lambda line: with_field(line, k, n)


# fault 1 is of the whole text, fault 2 of its bytes, the others of its fields
FILLED = b"     7\n" * 4097

FAULT_2 = {"first": broken(0), "middle": broken(INTERNAL_ROW), "last": broken(MEASURE)}

FAULTS = {
    3: {"first": replaced(IMPL_PARAMETER, longer), "middle": replaced(INTERNAL_ROW, longer), "last": replaced(MEASURE, longer)},
    4: {"first": replaced(IMPL_PARAMETER, field(0, 0)), "middle": replaced(INTERNAL_ROW, field(0, 2)), "last": replaced(MEASURE, field(0, 8))},
    5: {"first": replaced(IMPL_PARAMETER, field(1, 0)), "middle": replaced(SPEC_PARAMETER, field(2, 4)), "last": replaced(LAST_SPEC_ROW, field(2, 257))},
    6: {"first": replaced(IMPL_ROW, field(3, 9)), "middle": replaced(SPEC_ROW, field(3, 17)), "last": replaced(MEASURE, field(1, 7))},
    7: {"first": replaced(IMPL_ROW, field(1, 2)), "middle": replaced(INTERNAL_ROW, field(8, 1)), "last": replaced(LAST_SPEC_ROW, field(1, 0))},
}


def faulty(*faults):
    """The pump table with these faults, (number, place) each."""
    lines = PUMP
    for number, place in faults:
        if number in FAULTS:
            lines = FAULTS[number][place](lines)
    text = text_of(lines)
    for number, place in faults:
        if number == 2:
            text = FAULT_2[place](text)
    if any(number == 1 for number, _ in faults):
        text = text + FILLED
    return text


for number in range(2, 8):
    for place in ("first", "middle", "last"):
        case(f"{number}_{place}", number, faulty((number, place)))

for higher in range(2, 8):
    case(f"1_and_{higher}", 1, faulty((1, ""), (higher, "first")))

for lower in range(2, 8):
    for higher in range(lower + 1, 8):
        case(f"{lower}_first_{higher}_last", lower, faulty((lower, "first"), (higher, "last")))
        case(f"{higher}_first_{lower}_last", lower, faulty((higher, "first"), (lower, "last")))

case("all_faults", 1, faulty((1, ""), (2, "last"), (3, "first"), (4, "middle"), (5, "first"), (6, "last"), (7, "last")))
case("faults_2_to_7", 2, faulty((2, "last"), (3, "first"), (4, "middle"), (5, "first"), (6, "last"), (7, "last")))
case("faults_3_to_7", 3, faulty((3, "first"), (4, "middle"), (5, "first"), (6, "last"), (7, "last")))
case("faults_4_to_7", 4, faulty((4, "middle"), (5, "first"), (6, "last"), (7, "last")))
case("faults_5_to_7", 5, faulty((5, "first"), (6, "last"), (7, "last")))
case("faults_6_and_7", 6, faulty((6, "last"), (7, "last")))

# ---- 1, 2 and 3

case("pump", 0, PUMP)
case("no_bytes", 4, b"")
case("one_byte_10", 2, b"\n")
case("no_last_byte_10", 2, text_of(PUMP)[:-1])
case("an_empty_last_line", 2, text_of(PUMP) + b"\n")
case("byte_13_before_byte_10", 2, text_of(PUMP).replace(b"\n", b"\r\n"))
case("28672_bytes", 4, b"     1\n" * 4096)
case("28673_bytes", 1, b"     1\n" * 4096 + b"\n")
case("invariant_of_256_fields", 0, pump((INVARIANT, [5] + conjunction(128))))
case("invariant_of_257_fields", 3, pump((INVARIANT, [5, 14] + conjunction(128))))

# ---- 4: kinds and counts

FEWEST = [[1, 1, 0], [2, 1, 0], [5, 10], [6, 0, 0], [7, 0, 0]]
case("fewest_lines", 0, FEWEST)
for kind in (0, 9, 13, 14, 65535):
    case(f"kind_{kind}_first", 4, [[kind, 1, 0]] + FEWEST)
    case(f"kind_{kind}_last", 4, FEWEST + [[kind, 1, 0]])
for at, line in enumerate(FEWEST):
    case(f"no_kind_{line[0]}", 4, FEWEST[:at] + FEWEST[at + 1:])
    case(f"kind_{line[0]}_falls", 4, FEWEST[:at] + FEWEST[at + 1:] + [line] if at < 4 else [line] + FEWEST[:at])
for at in (2, 3, 4):
    case(f"two_of_kind_{FEWEST[at][0]}", 4, FEWEST[:at + 1] + FEWEST[at:])
case("kind_3_after_4", 4, pump((IMPL_ROW, PUMP[LAST_SPEC_ROW]), (LAST_SPEC_ROW, PUMP[IMPL_ROW])))
case("no_rows_of_kind_3", 0, [line for line in PUMP if line[0] != 3])
case("no_rows_of_kind_4", 0, [line for line in PUMP if line[0] != 4])

for at in (IMPL_PARAMETER, SPEC_PARAMETER):
    line = PUMP[at]
    for n in (1, 2, 4):
        case(f"kind_{line[0]}_of_{n}_fields", 4, pump((at, (line + [0])[:n])))
for at in (IMPL_ROW, LAST_SPEC_ROW):
    line = PUMP[at]
    for n in (1, 2):
        case(f"kind_{line[0]}_of_{n}_fields", 4, pump((at, line[:n])))
    case(f"kind_{line[0]}_of_3_fields", 6, pump((at, line[:3])))


def many(impl, spec, impl_rows, spec_rows):
    """A table with so many lines of kinds 1 to 4, of spans 1 and 256 in turn."""
    def row(kind, action, n):
        return [kind, action, 1 + (action % 2) * 255, 10, 0, action] + [1, 0] * n
    return ([[1, 1, 0]] * impl + [[2, 1, 0]] * spec
            + [row(3, i + 1, impl) for i in range(impl_rows)] + [row(4, i + 1, spec) for i in range(spec_rows)]
            + [[5, 10], [6] + [1, 0] * spec, [7, 0, 65535]])


case("8_and_8_parameters_32_and_32_rows", 0, many(8, 8, 32, 32))
case("9_implementation_parameters", 4, many(9, 8, 32, 31))
case("9_specification_parameters", 4, many(8, 9, 32, 31))
case("33_implementation_rows", 4, many(8, 7, 33, 32))
case("33_specification_rows", 4, many(7, 8, 32, 33))
case("84_lines_33_rows", 4, many(8, 8, 33, 32))
case("84_lines_with_marks", 0, many(8, 8, 32, 32) + [[8]])
case("85_lines_two_of_marks", 4, many(8, 8, 32, 32) + [[8], [8]])
case("84_lines_two_measures", 4, many(8, 8, 32, 32) + [[7, 0, 0]])
case("120_lines", 4, many(8, 8, 50, 51))


def fields_in_all(total):
    """A table of so many fields: lines of kind 3 that fill up with conjunctions, and the rest in the invariant."""
    lines = many(1, 1, 15, 0)
    for i in range(2, 17):
        lines[i] = lines[i][:3] + conjunction(125) + lines[i][4:]
    left = total - sum(len(line) for line in lines) + 1
    lines[17] = [5] + [14] * (1 - left % 2) + conjunction((left + left % 2) // 2)
    assert sum(len(line) for line in lines) == total
    return lines


case("4095_fields", 0, fields_in_all(4095))
case("4096_fields", 0, fields_in_all(4096))
case("4097_fields", 3, fields_in_all(4097))

# ---- 5: bounds


def sizes(*impl, spec=(1,)):
    """A table of no rows whose parameters have these sizes."""
    return ([[1, size, 0] for size in impl] + [[2, size, 0] for size in spec]
            + [[5, 10], [6] + [0, 0] * len(spec), [7, 0, 0]])


case("sizes_256_256", 0, sizes(256, 256))
case("sizes_257_256", 5, sizes(257, 256))
case("sizes_256_257", 5, sizes(256, 257))
case("sizes_32768_2", 0, sizes(32768, 2))
case("sizes_32768_2_1", 0, sizes(32768, 2, 1))
case("sizes_32768_2_2", 5, sizes(32768, 2, 2))
case("sizes_65535", 0, sizes(65535))
case("sizes_65535_1", 0, sizes(65535, 1))
case("sizes_65535_2", 5, sizes(65535, 2))
case("sizes_32768_32768_4", 5, sizes(32768, 32768, 4))
case("sizes_65535_eight_times", 5, sizes(*[65535] * 8))
case("sizes_256_four_times", 5, sizes(*[256] * 4))
case("sizes_256_eight_times", 5, sizes(*[256] * 8))
case("sizes_4_eight_times", 0, sizes(*[4] * 8))
case("sizes_4_seven_times_and_5", 5, sizes(*[4] * 7, 5))
case("size_0", 5, sizes(0))
case("size_0_among_large_ones", 5, sizes(65535, 0, 65535))
case("size_0_after_256_eight_times", 5, sizes(*[256] * 7, 0))
case("specification_size_0", 5, sizes(1, spec=(1, 0)))
case("specification_sizes_65535_eight_times", 0, sizes(1, spec=[65535] * 8))
for at in (IMPL_PARAMETER, SPEC_PARAMETER):
    kind, size, _ = PUMP[at]
    case(f"kind_{kind}_initial_below_size", 0, pump((at, [kind, size, size - 1])))
    case(f"kind_{kind}_initial_of_size", 5, pump((at, [kind, size, size])))
    case(f"kind_{kind}_initial_65535", 5, pump((at, [kind, size, 65535])))
    case(f"kind_{kind}_size_and_initial_0", 5, pump((at, [kind, 0, 0])))
for span, number in ((0, 5), (1, 0), (256, 0), (257, 5), (65535, 5)):
    case(f"span_{span}", number, pump((IMPL_ROW, with_field(PUMP[IMPL_ROW], 2, span)), (SPEC_ROW, with_field(PUMP[SPEC_ROW], 2, span))))
case("span_0_of_the_last_row", 5, pump((LAST_SPEC_ROW, with_field(PUMP[LAST_SPEC_ROW], 2, 0))))
case("span_257_of_an_internal_row", 5, pump((INTERNAL_ROW, with_field(PUMP[INTERNAL_ROW], 2, 257))))

# ---- 6: terms

for at in (INVARIANT, MAPPING, MEASURE):
    line = PUMP[at]
    case(f"kind_{line[0]}_alone", 6, pump((at, line[:1])))
for at in (IMPL_ROW, INTERNAL_ROW, LAST_SPEC_ROW, INVARIANT, MAPPING, MEASURE):
    line = PUMP[at]
    case(f"line_{at + 1}_ends_early", 6, pump((at, line[:-1])))
    case(f"line_{at + 1}_ends_late", 6, pump((at, line + [0])))
    case(f"line_{at + 1}_with_a_value_more", 6, pump((at, line + [0, 0])))
case("one_next_value_too_few", 6, pump((IMPL_ROW, PUMP[IMPL_ROW][:-1])))
case("next_values_of_the_other_process", 6, sizes(1, spec=(1, 1))[:3] + [[3, 1, 1, 10, 0, 0, 0, 0, 0, 0]] + sizes(1, spec=(1, 1))[3:])
case("next_value_for_each_parameter", 0, sizes(1, spec=(1, 1))[:3] + [[3, 1, 1, 10, 0, 0, 0, 0], [4, 2, 1, 10, 0, 0, 0, 0, 0, 0]] + sizes(1, spec=(1, 1))[3:])
case("mapping_by_kind_1_lines", 6, sizes(1, 1, spec=(1,))[:-2] + [[6, 0, 0, 0, 0], [7, 0, 0]])
case("mapping_parameter_of_kind_1", 0, sizes(1, 1, spec=(1,))[:-2] + [[6, 1, 1], [7, 1, 1]])
case("mapping_parameter_of_kind_2", 6, sizes(1, spec=(1, 1))[:-2] + [[6, 1, 0, 1, 1], [7, 0, 0]])
case("invariant_parameter_past_the_last", 6, pump((INVARIANT, [5, 12, 1, 2, 0, 0])))
case("measure_parameter_past_the_last", 6, pump((MEASURE, [7, 1, 2])))
case("measure_parameter_65535", 6, pump((MEASURE, [7, 1, 65535])))
case("sum_value_in_the_invariant", 6, pump((INVARIANT, [5, 12, 2, 0, 0])))
case("sum_value_in_the_mapping", 6, pump((MAPPING, [6, 2, 0, 0])))
case("sum_value_in_the_measure", 6, pump((MEASURE, [7, 2])))
case("sum_value_in_a_branch_never_taken", 6, pump((MEASURE, [7, 6, 10, 0, 0, 2])))
case("sum_value_in_a_row_of_span_1", 0, pump((INTERNAL_ROW, [3, 0, 1, 12, 2, 0, 0, 0, 0, 0, 0, 0, 0])))
case("formula_for_a_value", 6, pump((MEASURE, [7, 10])))
case("value_for_a_formula", 6, pump((INVARIANT, [5, 0, 1])))
for mark in (7, 8, 9, 10, 17, 65535):
    case(f"measure_of_mark_{mark}", 6, pump((MEASURE, [7, mark, 0, 0])))
for mark in (0, 6, 7, 9, 17, 65535):
    case(f"invariant_of_mark_{mark}", 6, pump((INVARIANT, [5, mark, 0, 0])))
case("formula_of_depth_32", 0, pump((INVARIANT, [5] + negations(32))))
case("formula_of_depth_33", 6, pump((INVARIANT, [5] + negations(33))))
case("value_of_depth_32", 0, pump((MEASURE, [7] + sums(32))))
case("value_of_depth_33", 6, pump((MEASURE, [7] + sums(33))))
case("depth_32_over_values_and_formulas", 0, pump((MEASURE, [7] + choice(32))))
case("depth_33_over_values_and_formulas", 6, pump((MEASURE, [7] + choice(33))))
case("depth_32_in_each_term_of_a_row", 0, pump((IMPL_ROW, [3, 1, 4] + negations(32) + 3 * choice(32))))
case("depth_33_in_the_last_term_of_a_row", 6, pump((IMPL_ROW, [3, 1, 4, 10, 0, 0, 0, 0] + sums(33))))


def joined(at):
    """The pump table with the byte 10 after line `at` lost."""
    return PUMP[:at] + [PUMP[at] + PUMP[at + 1]] + PUMP[at + 2:]


for at, number in ((0, 4), (3, 4), (4, 6), (6, 6), (7, 6), (8, 4), (9, 4), (10, 4)):
    case(f"byte_10_lost_after_line_{at + 1}", number, joined(at))

# ---- 4 and 6: marks

case("marks", 0, PUMP + [[8, 10]])
case("marks_first", 4, [[8, 10]] + PUMP)
case("marks_before_the_measure", 4, PUMP[:MEASURE] + [[8, 10], PUMP[MEASURE]])
case("marks_twice", 4, PUMP + [[8, 10], [8, 10]])
case("marks_and_no_measure", 4, PUMP[:MEASURE] + [[8, 10]])
case("a_mark_too_few", 6, PUMP + [[8]])
case("a_mark_too_many", 6, PUMP + [[8, 10, 10]])
case("marks_end_early", 6, PUMP + [[8, 15, 10]])
case("marks_of_no_internal_row", 0, FEWEST + [[8]])
case("a_mark_of_no_internal_row", 6, FEWEST + [[8, 10]])
case("a_mark_of_the_sum_value", 0, PUMP + [[8, 12, 2, 0, 0]])
case("a_mark_of_the_last_parameter", 0, PUMP + [[8, 12, 1, 1, 0, 0]])
case("a_mark_past_the_last_parameter", 6, PUMP + [[8, 12, 1, 2, 0, 0]])
case("a_value_for_a_mark", 6, PUMP + [[8, 0, 1]])
case("a_mark_of_depth_32", 0, PUMP + [[8] + negations(32)])
case("a_mark_of_depth_33", 6, PUMP + [[8] + negations(33)])
case("marks_of_256_fields", 0, PUMP + [[8] + conjunction(128)])
case("marks_of_257_fields", 3, PUMP + [[8, 14] + conjunction(128)])
case("bad_span_and_a_mark_too_few", 5, pump((INTERNAL_ROW, with_field(PUMP[INTERNAL_ROW], 2, 0))) + [[8]])
case("a_mark_too_few_and_bad_data", 6, pump((INTERNAL_ROW, with_field(PUMP[INTERNAL_ROW], 9, 1))) + [[8]])

# ---- 7: actions


def rows(impl, spec):
    """A table of a parameter each with these rows: (action, span, data) each."""
    return ([[1, 2, 0], [2, 2, 0]] + [[3, a, s, 10] + d + [1, 0] for a, s, d in impl] + [[4, a, s, 10] + d + [1, 0] for a, s, d in spec]
            + [[5, 10], [6, 1, 0], [7, 0, 0]])


NOTHING = [0, 0]
case("visible_action_twice_in_kind_3", 7, rows([(1, 1, NOTHING), (2, 1, NOTHING), (1, 1, NOTHING)], []))
case("visible_action_twice_in_kind_4", 7, rows([], [(1, 1, NOTHING), (2, 1, NOTHING), (1, 1, NOTHING)]))
case("last_two_rows_of_one_action", 7, rows([], [(1, 1, NOTHING), (65535, 1, NOTHING), (65535, 1, NOTHING)]))
case("one_action_in_both_processes", 0, rows([(1, 1, NOTHING)], [(1, 1, NOTHING)]))
case("one_action_with_different_data", 0, rows([(1, 1, [0, 5])], [(1, 1, [2])]))
case("actions_in_one_process_only", 0, rows([(1, 1, NOTHING), (2, 9, NOTHING)], [(3, 1, NOTHING), (4, 7, NOTHING)]))
case("different_spans", 7, rows([(1, 1, NOTHING)], [(1, 2, NOTHING)]))
case("different_spans_of_the_last_rows", 7, rows([(5, 3, NOTHING), (1, 2, NOTHING)], [(5, 3, NOTHING), (2, 2, NOTHING), (1, 1, NOTHING)]))
case("spans_crossed", 7, rows([(1, 1, NOTHING), (2, 2, NOTHING)], [(1, 2, NOTHING), (2, 1, NOTHING)]))
case("internal_rows_of_different_spans", 0, rows([(0, 1, NOTHING), (0, 256, NOTHING), (0, 1, NOTHING)], []))
case("action_0_in_kind_4", 7, rows([], [(1, 1, NOTHING), (0, 1, NOTHING)]))
case("action_0_of_one_span_in_both", 7, rows([(0, 1, NOTHING)], [(0, 1, NOTHING)]))
for name, data in (("0_1", [0, 1]), ("sum_of_zeros", [3, 0, 0, 0, 0]), ("sum_value", [2]), ("parameter", [1, 0]), ("choice_of_zeros", [6, 10, 0, 0, 0, 0])):
    case(f"internal_data_{name}", 7, rows([(0, 1, NOTHING), (0, 1, data)], []))


# ---- what the program writes

MODULUS, FACTOR, FIELDS, STARTS = 65521, 31, 4096, 85


def check_number(numbers):
    number = 0
    for n in numbers:
        number = (number * FACTOR + n) % MODULUS
    return number


def written(name, number, lines):
    if number:
        return f"{name}: fault {number}, lines 0 0 0 0 0, fields 0, starts 0\n"
    fields = [field for line in lines for field in line]
    starts = [sum(len(line) for line in lines[:i]) for i in range(len(lines) + 1)]
    counts = " ".join(str(sum(line[0] == kind for line in lines)) for kind in (1, 2, 3, 4, 8))
    checks = [check_number(held + [0] * (room - len(held))) for held, room in ((fields, FIELDS), (starts, STARTS))]
    each = "".join(f", {line[0]} of {len(line)}" for line in lines)
    return f"{name}: fault 0, lines {counts}, fields {checks[0]}, starts {checks[1]}{each}\n"


def main():
    data = os.path.join(CRATE, "data")
    shutil.rmtree(data, ignore_errors=True)
    os.makedirs(data)
    assert len({name for name, *_ in cases}) == len(cases)
    for name, _, _, text in cases:
        with open(os.path.join(data, name), "wb") as file:
            file.write(text)
    with open(os.path.join(CRATE, "args"), "w") as file:
        file.write("".join(f"{name}\n" for name, *_ in cases))
    with open(os.path.join(CRATE, "stdout"), "w") as file:
        file.write("".join(written(name, number, lines) for name, number, lines, _ in cases))


main()
