#!/usr/bin/env python3
"""Holds what linkcheck --json writes of failed tables, and linkcheck --measure --json of those turned down by 18, read from standard input,
against the tables: which states are reached, by a search of its own; that each trace is one, that none is shorter, and that of the
shortest it is the first by rows and sum values; and that rows, conditions, conjuncts, data, next and mapped states are as they are said.
Of tables where there is more to look at than LOOKS states with a row and a sum value the traces are only followed. Ends with 1 at the
first fault."""
import collections
import json
import sys
sys.dont_write_bytecode = True
import infix
import tables

LOOKS = 400000


class Table(tables.Table):
    def steps(self, state):
        """the steps that are followed, in the order of rows and sum values"""
        for r, row in enumerate(self.rows, 1):
            for s in range(row.span):
                if not row.condition(state, s) or row.data(state, s) is None: continue
                to = row.to(state, s)
                if to in self.number: yield r, s, to

    def search(self):
        """the steps of every state that the initial one reaches"""
        self.reached, last = {}, {self.initial}
        while last:
            for state in last: self.reached[state] = list(self.steps(state))
            last = {to for state in last for _, _, to in self.reached[state] if to not in self.reached}

    def left_to(self, end):
        """how many steps there are left to the end, by going backwards"""
        before = collections.defaultdict(set)
        for state, steps in self.reached.items():
            for _, _, to in steps: before[to].add(state)
        left, last, length = {end: 0}, {end}, 0
        while last:
            length += 1
            last = {state for to in last for state in before[to] if state not in left}
            left.update((state, length) for state in last)
        return left

    def trace(self, end):
        left, at, found = self.left_to(end), self.initial, []
        while at != end:
            r, s, to = next(step for step in self.reached[at] if left.get(step[2]) == left[at] - 1)
            found.append(self.told_step(at, r, s, to))
            at = to
        return found

    def told_step(self, state, r, s, to):
        row = self.rows[r - 1]
        return dict(self.told_state(state), row=r, sum=s, action=row.action, data=row.data(state, s), next=self.told_state(to))

    def told_state(self, state):
        """a state with its number if it is inside the sizes"""
        return dict({'state': self.number[state]} if state in self.number else {}, values=list(state))

    def mapped(self, state):
        """None if it lacks a value"""
        to = tuple(value(state) for value in self.mapping)
        return None if None in to else to

    def follow(self, trace):
        """where a trace leads"""
        at = self.initial
        for told in trace:
            r, s = told['row'], told['sum']
            row = self.rows[r - 1]
            to = row.to(at, s)
            if s >= row.span or not row.condition(at, s) or told != self.told_step(at, r, s, to): return None
            at = to
        return at


def need(truth, told, what):
    if not truth: sys.exit('runs: %s: %s: %s' % (told['file'], what, json.dumps(told)[:2000]))


def check_run(t, told):
    end = t.states[told['state']]
    if told.get('criterion') == 1:
        need(end == t.initial and told['reached'] and told['trace'] == [], told, 'the initial state')
    elif t.looks() > LOOKS:
        need(not told['reached'] or t.follow(told['trace']) == end, told, 'no trace')
        return 'large'
    else:
        t.search()
        need(told['reached'] == (end in t.reached), told, 'reached or not')
        need(not told['reached'] or told['trace'] == t.trace(end), told, 'not the first of the shortest traces')
    need(told['reached'] == ('trace' in told), told, 'a trace')
    return 'reached by %s' % ('no step' if not told['trace'] else 'steps') if told['reached'] else 'not reached'


def check_formula(t, told, shown, due, values, s, letter, states):
    """a formula that is shown means what it should, and so do its values; it is tried in some states"""
    meant = infix.formula(shown['term'])
    for state in [values] + states: need(meant(state, s) == due(state, s), told, 'another formula than %s' % shown['term'])
    reads = {name: s if name == 's' else values[int(name[1])] for name in infix.reads(shown['term'])}
    need(reads == shown['reads'] and all(name[0] in (letter, 's') for name in reads), told, 'other values in %s' % shown['term'])


def some_states(sizes):
    return [tuple((k * (i + 3) + k // 5) % size for i, size in enumerate(sizes)) for k in range(60)]


def check_row(t, told, shown, action, ours, at):
    """a row of either side with its condition; the state and the sum value are given"""
    row = (t.our_rows if ours else t.rows)[shown['row'] - 1]
    s, line = told['sum'], t.line(4 if ours else 3, shown['row'])
    need(row.action == action and shown['row_of'] == ('specification' if ours else 'implementation'), told, 'another row')
    need(shown['line'] == shown['condition']['line'] == line, told, 'another line')
    check_formula(t, told, shown['condition'], row.condition, at, s, 'pq'[ours], some_states(t.our_sizes if ours else t.sizes))
    if row.condition(at, s):
        need(shown['data'] == row.data(at, s), told, 'other data')
        due = {'values': list(row.to(at, s))} if ours else t.told_state(row.to(at, s))
        got = {member: shown['next'][member] for member in shown['next'] if member in ('state', 'values')}
        need(got == due, told, 'another next state')
    else: need('data' not in shown and 'next' not in shown, told, 'data of a row that is not enabled')
    return row


def check_next(t, told, to):
    """what else is said of the next state"""
    criterion, next_state = told['criterion'], told['next']
    mapped = t.mapped(to) if criterion in (4, 9) and 'missing' not in told else None
    measure = t.measure(to) if criterion == 5 and 'missing' not in told else None
    need(next_state.get('mapped') == (list(mapped) if mapped else None), told, 'another mapped state of the next')
    need(next_state.get('measure') == measure, told, 'another measure of the next')


def check_rows(t, told):
    state, criterion = t.states[told['state']], told['criterion']
    mapped, ours = t.mapped(state), criterion == 7
    row = check_row(t, told, told, told['action'], ours, mapped if ours else state)
    need(row.condition(mapped if ours else state, told['sum']), told, 'not enabled')
    if not ours: check_next(t, told, row.to(state, told['sum']))
    counterparts = [r for r, other in enumerate(t.rows if ours else t.our_rows, 1) if other.action == told['action']]
    due = counterparts[0] if criterion >= 6 and counterparts else None
    need(told.get('other', {}).get('row') == due, told, 'another row of the other side')
    if due is None: return
    other = check_row(t, told, told['other'], told['action'], not ours, state if ours else mapped)
    need(told['other']['enabled'] == other.condition(state if ours else mapped, told['sum']) == (criterion > 7), told, 'the other row')


def check_conjunct(t, told):
    """the first formula of the invariant, or of the other side's condition, that is false"""
    state, criterion, s = t.states[told['state']], told['criterion'], told.get('sum', 0)
    at, line, start, letter = state, None, 1, 'p'
    if criterion == 1: line, s = t.line(5), 0
    if criterion == 3: at, line, s = tuple(told['next']['values']), t.line(5), 0
    if criterion in (6, 7) and 'other' in told: line, start = told['other']['condition']['line'], 3
    if criterion == 6: at, letter = t.mapped(state), 'q'
    if criterion == 3 and at not in t.number or 'missing' in told: line = None
    false = [f for f in tables.conjuncts(iter(t.lines[line - 1][start:])) if f(at, s) is False] if line else []
    need(('conjunct' in told) == bool(false), told, 'a conjunct')
    if not false: return
    need(told['conjunct']['line'] == line, told, 'the line of the conjunct')
    sizes = t.our_sizes if letter == 'q' else t.sizes
    check_formula(t, told, told['conjunct'], false[0], at, s, letter, some_states(sizes))


seen = collections.Counter()
for line in sys.stdin:
    told = json.loads(line)
    if told.get('verdict') != 'failed' and told.get('number') != 18: continue
    if 'criterion' not in told: told['criterion'] = {'criterion 3': 3, 'criterion 10': 10}[told['about']]
    table = Table(told['file'])
    seen[check_run(table, told)] += 1
    mapped = table.mapped(table.states[told['state']])
    need(told.get('mapped') == (list(mapped) if mapped else None), told, 'another mapped state')
    if 3 <= told['criterion'] <= 9: check_rows(table, told)
    check_conjunct(table, told)
    seen['conjunct'] += 'conjunct' in told
print('runs: ' + ', '.join('%d %s' % (seen[kind], kind) for kind in sorted(seen)))
