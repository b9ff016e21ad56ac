#!/usr/bin/env python3
"""Holds what linkcheck --json writes of accepted tables, read from standard input, against the tables: whether an internal row is enabled in
the initial state, which is the first, for which sum value, and whether that step is marked. Writes the line in words that is due for each.
Ends with 1 at the first fault."""
import json
import sys
sys.dont_write_bytecode = True
from tables import Table


def first_step(t):
    """the row, counted from 1, and the sum value; None if no internal row is enabled"""
    enabled = ((r, s) for r, row in enumerate(t.rows, 1) if row.action == 0 for s in range(row.span) if row.condition(t.initial, s))
    return next(enabled, None)


def due_of(t):
    """the members after the file, and the words"""
    first = first_step(t)
    if first is None: return {'verdict': 'accepted'}, 'accepted'
    row, s = first
    state, marked = t.number[t.initial], t.rows[row - 1].mark(t.initial, s)
    due = {'verdict': 'accepted after internal', 'state': state, 'values': list(t.initial), 'row': row, 'sum': s,
           'line': t.line(3, row)}
    if 8 in t.kinds: due['marked'] = marked
    words = 'accepted after a first internal step: row %d (internal, line %d), sum value %d, enabled in the initial state %d = (%s)%s' % (
        row, due['line'], s, state, ', '.join(map(str, t.initial)), '' if marked else ' but not marked')
    return due, words


for line in sys.stdin:
    told = json.loads(line)
    if not told['verdict'].startswith('accepted'): continue
    due, words = due_of(Table(told['file']))
    if told != dict(due, file=told['file']): sys.exit('first: %s: %s is due, not %s' % (told['file'], due, line.strip()))
    print('%s  %s' % (told['file'], words))
