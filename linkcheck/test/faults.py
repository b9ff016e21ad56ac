#!/usr/bin/env python3
"""Holds what linkcheck --json writes of texts that are turned down, read from standard input, against the texts: the number of the lowest
fault, the lines that show it, the kinds that have no line, and what is quoted. Ends with 1 at the first fault."""
import json
import re
import sys

FIELD = re.compile(rb'(0|[1-9][0-9]*)')
LISTED = 100
LINES = {1: (1, 8), 2: (1, 8), 3: (0, 32), 4: (0, 32), 5: (1, 1), 6: (1, 1), 7: (1, 1), 8: (0, 1)}
VALUES, FORMULAS = {3: 'vv', 4: 'vv', 5: 'vv', 6: 'fvv'}, {10: '', 11: '', 12: 'vv', 13: 'vv', 14: 'f', 15: 'ff', 16: 'ff'}


class Wrong(Exception): pass


def number_of(columns):
    """the number in six columns, None if they hold none"""
    digits = columns.lstrip(b' ')
    return int(digits) if FIELD.fullmatch(digits) and int(digits) <= 65535 else None


def fields_of(line):
    fields = [number_of(line[i:i + 6]) for i in range(0, len(line), 6)]
    return None if not line or len(line) % 6 or None in fields else fields


def term(fields, sort, parameters, has_sum, depth=1):
    """takes a value or a formula from the front of the fields, and gives it"""
    if not fields or depth > 32: raise Wrong
    mark = fields.pop(0)
    taken = [mark]
    if sort == 'f':
        if mark not in FORMULAS: raise Wrong
        parts = FORMULAS[mark]
    else:
        parts = VALUES.get(mark, '')
        if mark > 6 or (mark == 2 and not has_sum): raise Wrong
        if mark in (0, 1):
            if not fields or (mark == 1 and fields[0] >= parameters): raise Wrong
            taken.append(fields.pop(0))
    for part in parts: taken += term(fields, part, parameters, has_sum, depth + 1)
    return taken


class Text:
    def __init__(self, name):
        with open(name, 'rb') as file: self.bytes = file.read()
        self.ended = not self.bytes or self.bytes.endswith(b'\n')
        self.raw = self.bytes.split(b'\n')
        if self.raw[-1] == b'': self.raw.pop()
        self.lines = [fields_of(line) for line in self.raw]

    def count(self, kind, before=None):
        return sum(line[0] == kind for line in self.lines[:before])

    def wrong_terms(self, line):
        kind, fields, ours = line[0], list(line[1:]), line[0] == 4
        if kind <= 2: return False
        implementation, specification = self.count(1), self.count(2)
        if kind in (3, 4): sorts, fields = 'fv' + 'v' * (specification if ours else implementation), fields[2:]
        else: sorts = {5: 'f', 6: 'v' * specification, 7: 'v', 8: 'f' * sum(row[:2] == [3, 0] for row in self.lines)}[kind]
        try:
            for sort in sorts: term(fields, sort, specification if ours else implementation, kind in (3, 4, 8))
        except Wrong: return True
        return bool(fields)

    def shows(self, number, i):
        """whether line i, counted from 0, shows the fault with this number, if none lower is there"""
        line, lines = self.lines[i], self.lines
        if number == 2: return line is None or (i == len(lines) - 1 and not self.ended)
        if number == 3:
            before = sum(map(len, lines[:i]))
            return len(line) > 256 or before <= 4096 < before + len(line)
        kind = line[0]
        if number == 4:
            falls = i > 0 and lines[i - 1][0] in LINES and kind < lines[i - 1][0]  # what is no kind has no place in their order
            if kind not in LINES or falls or self.count(kind, i + 1) > LINES[kind][1]: return True
            return len(line) != 3 if kind <= 2 else kind <= 4 and len(line) < 3
        if number == 5:
            if kind <= 2 and not 0 <= line[2] < line[1] or kind in (3, 4) and not 1 <= line[2] <= 256: return True
            product = 1
            for other in lines[:i]: product *= other[1] if other[0] == 1 else 1
            return kind == 1 and product <= 65536 < product * line[1]
        if number == 6: return self.wrong_terms(line)
        if kind not in (3, 4): return False
        if line[1] and any(other[:2] == line[:2] for other in lines[:i]): return True
        if kind == 4: return line[1] == 0 or any(other[:2] == [3, line[1]] and other[2] != line[2] for other in lines)
        fields = line[3:]
        term(fields, 'f', 8, True)
        return line[1] == 0 and term(fields, 'v', 8, True) != [0, 0]

    def missing(self):
        return [kind for kind, (least, _) in LINES.items() if self.count(kind) < least]

    def fault(self):
        """the number and its lines"""
        if len(self.bytes) > 28672: return 1, []
        for number in range(2, 8):
            lines = [i + 1 for i in range(len(self.lines)) if self.shows(number, i)]
            if lines or (number == 4 and self.missing()): return number, lines
        return 0, []


def words_of_missing(kinds):
    if len(kinds) == 1: return 'no line of kind %d' % kinds[0]
    return 'no line of kinds %s and %d' % (', '.join(map(str, kinds[:-1])), kinds[-1])


def hold(told):
    text = Text(told['file'])
    number, lines = text.fault()
    assert told['number'] == number, 'number %d' % number
    named = [fault['line'] for fault in told['faults'] if 'line' in fault]
    assert named == lines[:LISTED] and told.get('further', False) == (len(lines) > LISTED), 'lines %s' % lines[:LISTED]
    apart = [fault['fault'] for fault in told['faults'] if 'line' not in fault]
    due = {1: ['more than 28672 bytes'], 4: [words_of_missing(text.missing())] if number == 4 and text.missing() else []}.get(number, [])
    assert apart == due, due
    assert all(told.get(member) == value for member, value in told['faults'][0].items()), 'the first is told otherwise'
    for fault in told['faults'][:20]:
        assert 'fault' in fault, 'no words'
        if number > 2 and 'column' in fault:
            field = text.lines[fault['line'] - 1][(fault['column'] - 1) // 6]
            assert field == int(fault['quoted']), 'the field %d' % field
        if number == 2 and 'column' in fault: assert 1 <= fault['column'] <= len(text.raw[fault['line'] - 1]), 'no such column'
    return len(lines)


numbers, several = {}, 0
for one in map(json.loads, sys.stdin):
    if one['verdict'] != 'turned down': continue
    try: several += hold(one) > 1
    except AssertionError as error: sys.exit('faults: %s: %s is due, not %s' % (one['file'], error, one))
    numbers[one['number']] = numbers.get(one['number'], 0) + 1
if sorted(numbers) != [1, 2, 3, 4, 5, 6, 7] or several < 30: sys.exit('faults: few texts: %s, %d with several lines' % (numbers, several))
print('faults: %d texts, %d with several lines' % (sum(numbers.values()), several))
