#!/usr/bin/env python3
"""Holds what linkcheck --json writes of failed tables, read from standard input, against the tables: criterion 10 fails in a state exactly
if something there has no value, and what is said to be missing is the first there; where criterion 1, 3, 4, 5 or 9 fails by a missing
value, that one is missing where the step leads, and where none is said, none is. Ends with 1 at the first fault."""
import json
import sys
sys.dont_write_bytecode = True
from tables import Table, place

PARTS = {1: ('invariant', 'mapping'), 3: ('invariant',), 4: ('mapping',), 5: ('measure',), 9: ('mapping',)}


def due_of(t, told):
    """what is missing, None if nothing is"""
    state, criterion = t.states[told['state']], told['criterion']
    if criterion == 10: return next(t.missing(state), {})
    if criterion != 1 and any(t.missing(state)): return {}
    at = state
    if criterion in (3, 4, 5, 9): at = t.rows[told['row'] - 1].to(state, told['sum'])
    if at not in t.number: return None
    for part in PARTS.get(criterion, ()):
        found = t.missing_outside_rows(part, at)
        if found: return found[0]
        if part == 'invariant' and not t.invariant(at): return None
    return None


seen = {}
for line in sys.stdin:
    told = json.loads(line)
    if told['verdict'] != 'failed': continue
    due, got = due_of(Table(told['file']), told), told.get('missing')
    if got is not None:
        where = 'line %d, ' % got['line']
        if 'no value in ' + where not in told['difference'] or ': %s' % got['term'] not in told['difference'] or ' mod ' not in got['term']:
            sys.exit('values: %s: the words have another place than %s' % (told['file'], got))
        got = place(got)
    elif 'no value' in told['difference']: sys.exit('values: %s: the words alone lack a value' % told['file'])
    if got != due: sys.exit('values: %s: %s is due, not %s' % (told['file'], due, line.strip()))
    if due: seen[told['criterion']] = seen.get(told['criterion'], 0) + 1
print('values: a missing value in ' + ', '.join('%d by criterion %d' % (seen[criterion], criterion) for criterion in sorted(seen)))
