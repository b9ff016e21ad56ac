#!/usr/bin/env python3
"""Holds what linkcheck --walk shows of a table against the table: in every state, or in some of many, what holds there, every step with its
label, row, line, sum values, end and mark, and what each criterion says of it, by a reckoning of its own; and ours.
Usage: walk.py LINKCHECK TABLE... Ends with 1 at the first fault."""
import itertools
import re
import subprocess
import sys
sys.dont_write_bytecode = True
import tables

MOST_STATES, MOST_SHOWN = 300, 40
MARKS = {True: ', marked', False: ', not marked', None: ', mark without a value'}
STEP = re.compile(r'(?:  ([ 0-9]{3}[0-9])  |        )(?:tau|a(\d+)\((\d+)\)) -> (?:state (\d+) = )?\(([0-9, ]+)\)(, outside the sizes)?; '
                  r'row (\d+) \(line (\d+)\), sum values? (\d+)(?: to (\d+))?(, marked|, not marked|, mark without a value)?'
                  r'(?:; criteri(?:on|a) ([0-9, ]+) holds?)?$')


class Table(tables.Table):
    def mapped(self, state):
        to = tuple(value(state) for value in self.mapping)
        return None if None in to else to

    def row_of(self, ours, action):
        return next((row for row in (self.our_rows if ours else self.rows) if row.action == action), None)

    def is_focus(self, state):
        return not any(row.condition(state, s) and row.mark(state, s) for row in self.rows if row.action == 0 for s in range(row.span))

    def said(self, state, row, s):
        """each criterion that is asked of a step of the board, with whether it holds"""
        to, here = row.to(state, s), self.mapped(state)
        said = {3: self.holds(to)}
        inside = to in self.number
        if row.action == 0:
            if inside: said[4] = self.mapped(to) == here
            if inside and row.mark(state, s): said[5] = self.measure(to) is not None and self.measure(to) < self.measure(state)
            return said
        ours = self.row_of(True, row.action)
        said[6] = bool(ours and ours.condition(here, s))
        if not said[6]: return said
        said[8] = ours.data(here, s) == row.data(state, s)
        if inside: said[9] = self.mapped(to) == ours.to(here, s)
        return said

    def steps(self, state, judged):
        """row, sum value, and what is shown of it: label, end, mark and criteria"""
        for r, row in enumerate(self.rows, 1):
            for s in range(row.span):
                if not row.condition(state, s) or row.data(state, s) is None or row.to(state, s) is None: continue
                label = None if row.action == 0 else (row.action, row.data(state, s))
                mark = MARKS[row.mark(state, s)] if row.action == 0 else None
                yield (r, self.line(3, r)), s, (label, row.to(state, s), mark, self.said(state, row, s) if judged else {})

    def our_steps(self, state, judged):
        here = self.mapped(state)
        for r, row in enumerate(self.our_rows if here is not None else (), 1):
            for s in range(row.span):
                if not row.condition(here, s) or row.data(here, s) is None or row.to(here, s) is None: continue
                boards, said = self.row_of(False, row.action), {}
                if judged and self.is_focus(state): said[7] = bool(boards and boards.condition(state, s))
                yield (r, self.line(4, r)), s, ((row.action, row.data(here, s)), row.to(here, s), None, said)


def grouped(steps):
    """sum values that do the same and come one after the other are one"""
    found = []
    for row, s, shown in steps:
        if found and found[-1][0] == row and found[-1][3] == shown and found[-1][2] == s - 1: found[-1][2] = s
        else: found.append([row, s, s, shown])
    return found


def read_steps(t, lines, ours):
    """those that are shown, in the same form, and how many more there are"""
    found, more = [], 0
    for line in lines:
        step = STEP.match(line)
        fails = re.match(r' {8}criterion (\d+) fails(?:, for sum value (\d+))?: .', line)
        if step:
            number, action, data, end, values, out, row, at, first, last, mark, hold = step.groups()
            to = tuple(map(int, values.split(', ')))
            if ours and (number or end or out) or not ours and int(number) != len(found) + 1: return None
            if not ours and (end is None, out is None) != (to not in t.number, to in t.number): return None
            if end is not None and t.number[to] != int(end): return None
            said = {int(criterion): True for criterion in hold.split(', ')} if hold else {}
            found.append([(int(row), int(at)), int(first), int(last or first), (action and (int(action), int(data)), to, mark, said)])
        elif fails: found[-1][3][3][int(fails[1])] = False
        elif line.startswith('        and '): more = int(line.split()[1])
        elif not line.startswith('        no value in line ') and line != '        none': return None
    return found, more


def lacking(t, state, ours):
    """the rows that lack a value"""
    at = t.mapped(state) if ours else state
    return sorted({missing['row'] for missing in t.missing_in_rows(ours, at)}) if at is not None else []


def fault_in(t, state, text):
    """what is wrong in what is shown of a state, None if nothing is"""
    lines = text.split('\n')
    judged = t.invariant(state) is True and not any(t.missing(state))
    due = 'state %d = (%s)%s' % (t.number[state], ', '.join(map(str, state)), ', the initial state' if state == t.initial else '')
    if lines[0] != due: return 'state'
    due = {True: 'holds$', False: 'does not hold: .* (fails with .|never holds$)', None: 'no value in line %d, ' % t.line(5)}
    if not re.match('  invariant: ' + due[t.invariant(state)], lines[1]): return 'invariant'
    here, measure = t.mapped(state), t.measure(state)
    due = 'no value in line %d, ' % t.line(6) if here is None else re.escape('(%s)' % ', '.join(map(str, here)))
    if judged: due += '$' if all(value < size for value, size in zip(here, t.our_sizes)) else '; criterion 2 fails: '
    if not re.match('  mapping: ' + due, lines[2]): return 'mapping'
    due = 'no value in line %d, .*; ' % t.line(7) if measure is None else '%d; ' % measure
    if not re.match('  measure: ' + due + ('a focus point$' if t.is_focus(state) else 'no focus point, '), lines[3]): return 'measure'
    due = '  criterion 10 fails, ' if any(t.missing(state)) else '  no criterion is asked' if not judged else "the board's steps"
    if not lines[4].startswith(due): return 'what is asked'
    at, ours = lines.index("the board's steps"), [i for i, line in enumerate(lines) if line.startswith("the specification's steps at the mapped state ")]
    if bool(ours) != (here is not None): return 'the specification\'s steps'
    parts = [(lines[at + 1:ours[0] if ours else None], t.steps(state, judged), False)]
    if ours: parts.append((lines[ours[0] + 1:], t.our_steps(state, judged), True))
    for part, steps, is_ours in parts:
        due, got = grouped(steps), read_steps(t, part, is_ours)
        if got != (due[:MOST_SHOWN], max(0, len(due) - MOST_SHOWN)): return 'steps: %s are due, not %s' % (due, got)
        told = [line for line in part if line.startswith('        no value in line ')]
        if len(told) != len(lacking(t, state, is_ours)): return 'missing values'
    return None


count = 0
for name in sys.argv[2:]:
    table = Table(name)
    numbers = range(0, len(table.states), -(-len(table.states) // MOST_STATES))
    commands = ''.join('g %d\n' % number for number in numbers)
    shown = subprocess.run([sys.argv[1], '--walk', name], input=commands, capture_output=True, text=True, check=True).stdout
    blocks = re.split(r'\n(?=state \d+ = )', shown.rstrip('\n'))
    if len(blocks) != len(numbers) + 1: sys.exit('walk: %s: %d states are shown' % (name, len(blocks)))
    for state, block in zip(itertools.chain([table.initial], (table.states[number] for number in numbers)), blocks):
        fault = fault_in(table, state, block)
        if fault: sys.exit('walk: %s: %s\n%s' % (name, fault, block))
        count += 1
print('walk: %d states of %d tables' % (count, len(sys.argv) - 2))
