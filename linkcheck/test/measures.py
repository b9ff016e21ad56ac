#!/usr/bin/env python3
"""Holds what linkcheck --measure --json writes, read from standard input, against the tables: longest runs by rounds until nothing changes,
loops step by step, criteria 10 and 3 and the text's own measure in every state. Texts turned down by 1 to 7, and tables where there is
more to look at than LOOKS states with a row and a sum value, are only counted. Ends with 1 at the first fault."""
import json
import sys
sys.dont_write_bytecode = True
import tables

LOOKS = 60000


class Table(tables.Table):
    def walk(self):
        """where criterion 10, the measure apart, or 3 fails first, None if neither does; else the marked steps from each state within the
        invariant"""
        self.steps = {}
        for k, state in enumerate(self.states):
            at = {'state': k, 'values': list(state)}
            for missing in self.missing(state, measure=False): return dict(at, about='criterion 10', missing=missing)
            if not self.invariant(state): continue
            self.steps[k] = []
            for r, row in enumerate(self.rows, 1):
                for s in range(row.span):
                    if not row.condition(state, s): continue
                    to = row.to(state, s)
                    if not self.holds(to): return dict(at, about='criterion 3', row=r, sum=s, **self.missing_at(to))
                    if row.action == 0 and row.mark(state, s): self.steps[k].append((r, s, self.number[to]))
        return None

    def missing_at(self, to):
        found = self.missing_outside_rows('invariant', to) if to in self.number else []
        return {'missing': found[0]} if found else {}

    def runs(self):
        """the longest run from each state, None if there is a loop"""
        longest = [0] * len(self.states)
        for _ in self.states:
            known = list(longest)
            for state, steps in self.steps.items(): longest[state] = max((1 + known[to] for _, _, to in steps), default=0)
            if longest == known: return longest
        return None


def due_of(t):
    """the members that are due, but for a loop's"""
    out = t.walk()
    if out: return dict(out, measure='turned down', number=18)
    longest = t.runs()
    if longest is None: return {'measure': 'loop'}
    own = {k: t.measure(t.states[k]) for k in t.steps}
    due = {'measure': 'filled', 'states': len(t.states), 'largest': max(longest), 'numbers': longest}
    due['own_meets'] = None not in own.values() and all(own[to] < own[k] for k, steps in t.steps.items() for _, _, to in steps)
    if due['own_meets']: due['own_excess'] = max((own[k] - longest[k] for k in t.steps), default=0)
    return due


def is_loop(t, told):
    """each step is one, and no state comes twice"""
    stops = told['loop']
    after = stops[1:] + stops[:1]
    return stops and told['state'] == stops[0]['state'] and len({stop['state'] for stop in stops}) == len(stops) and all(
        list(t.states[stop['state']]) == stop['values'] and (stop['row'], stop['sum'], to['state']) in t.steps[stop['state']]
        for stop, to in zip(stops, after))


def shortest(t, start):
    """the steps of the shortest way from a state on a loop to itself"""
    found, last, length = set(), {start}, 0
    while start not in found:
        last = {to for state in last for _, _, to in t.steps[state]} - found
        found |= last
        length += 1
    return length


seen = {}
for line in sys.stdin:
    told = json.loads(line)
    kind = told['measure']
    if kind == 'turned down' and told['number'] <= 7:
        seen['turned down by 1 to 7'] = seen.get('turned down by 1 to 7', 0) + 1
        continue
    table = Table(told['file'])
    if table.looks() > LOOKS:
        seen['large'] = seen.get('large', 0) + 1
        continue
    due = due_of(table)
    got = {member: told[member] for member in told if member in due or member in ('own_excess', 'row', 'sum', 'missing')}
    if 'missing' in got: got['missing'] = tables.place(got['missing'])
    if got != due or kind == 'loop' and not (is_loop(table, told) and len(told['loop']) == shortest(table, told['state'])):
        sys.exit('measures: %s: %s is due, not %s' % (told['file'], due, line.strip()))
    seen[kind] = seen.get(kind, 0) + 1
print('measures: ' + ', '.join('%d %s' % (seen[kind], kind) for kind in sorted(seen)))
