"""Tables read and evaluated in another way than linkcheck's: terms become Python's. A remainder by zero is an error there, and a term that
comes to one has no value, None here."""
import itertools


def term(fields):
    """the term that comes next, over parameters p and the sum value s; both parts of and and or are evaluated, of a choice the one taken"""
    mark = next(fields)
    if mark == 0: return str(next(fields))
    if mark == 1: return 'p[%d]' % next(fields)
    if mark in (2, 10, 11): return {2: 's', 10: 'True', 11: 'False'}[mark]
    first = term(fields)
    if mark == 14: return '(not %s)' % first
    second = term(fields)
    if mark == 6: return '(%s if %s else %s)' % (second, first, term(fields))
    if mark in (3, 4): return '((%s %s %s) & 65535)' % (first, '+-'[mark - 3], second)
    return '(%s %s %s)' % (first, {5: '%', 12: '==', 13: '<', 15: '&', 16: '|'}[mark], second)


def function(body):
    whole = eval('lambda p, s: ' + body)

    def value(p, s=0):
        try: return whole(p, s)
        except ZeroDivisionError: return None
    return value


def conjuncts(fields):
    """the formulas that the one which comes next joins by and"""
    mark = next(fields)
    if mark == 15: return conjuncts(fields) + conjuncts(fields)
    return [function(term(itertools.chain([mark], fields)))]


def place(missing):
    """where a value is missing, of the members that are told of it"""
    return {member: missing[member] for member in missing if member not in ('term', 'dividend')}


class Row:
    def __init__(self, line, parameters):
        fields = iter(line[1:])
        self.action, self.span, self.condition, self.data = next(fields), next(fields), function(term(fields)), function(term(fields))
        self.next = [function(term(fields)) for _ in range(parameters)]
        self.mark = function('True')

    def to(self, state, s):
        """the next state, None if it lacks a value"""
        to = tuple(value(state, s) for value in self.next)
        return None if None in to else to


class Table:
    def __init__(self, name):
        with open(name) as file:
            lines = [[int(line[i:i + 6]) for i in range(0, len(line) - 1, 6)] for line in file]
        self.lines = lines
        self.kinds = [line[0] for line in lines]
        self.sizes, self.our_sizes = ([line[1] for line in lines if line[0] == kind] for kind in (1, 2))
        self.initial = tuple(line[2] for line in lines if line[0] == 1)
        self.states = list(itertools.product(*map(range, self.sizes)))
        self.number = {state: k for k, state in enumerate(self.states)}
        self.rows, self.our_rows = [], []
        for line in lines:
            fields = iter(line[1:])
            if line[0] == 3: self.rows.append(Row(line, len(self.sizes)))
            elif line[0] == 4: self.our_rows.append(Row(line, len(self.our_sizes)))
            elif line[0] == 5: self.invariant = function(term(fields))
            elif line[0] == 6: self.mapping = [function(term(fields)) for _ in self.our_sizes]
            elif line[0] == 7: self.measure = function(term(fields))
            elif line[0] == 8:
                for row in self.rows:
                    if row.action == 0: row.mark = function(term(fields))

    def looks(self):
        """how many rows and sum values there are to look at in all states"""
        return len(self.states) * sum(row.span for row in self.rows + self.our_rows)

    def holds(self, state):
        """inside the sizes, with an invariant that has a value and holds"""
        return state in self.number and self.invariant(state) is True

    def line(self, kind, row=1):
        return self.kinds.index(kind) + row

    def missing_in_rows(self, ours, state):
        def place(part, **more):
            line = self.line(8) if part == 'mark' else self.line(4 if ours else 3, r)
            return dict(more, part=part, line=line, row=r, row_of='specification' if ours else 'implementation', action=row.action, sum=s,
                        values=list(state))
        for r, row in enumerate(self.our_rows if ours else self.rows, 1):
            for s in range(row.span):
                enabled = row.condition(state, s)
                if enabled is None: yield place('condition')
                if row.mark(state, s) is None: yield place('mark')
                if not enabled: continue
                if row.data(state, s) is None: yield place('data')
                for i, value in enumerate(row.next):
                    if value(state, s) is None: yield place('next value', parameter=i)

    def missing_outside_rows(self, part, state):
        """of the invariant, the mapping or the measure"""
        at = {'part': part, 'values': list(state), 'line': self.line({'invariant': 5, 'mapping': 6, 'measure': 7}[part])}
        if part == 'mapping': return [dict(at, parameter=i) for i, value in enumerate(self.mapping) if value(state) is None]
        return [at] if {'invariant': self.invariant, 'measure': self.measure}[part](state) is None else []

    def missing(self, state, measure=True):
        """what lacks a value in a state by criterion 10, in order; the measure can be left apart"""
        yield from self.missing_outside_rows('invariant', state)
        if not self.invariant(state): return
        mapping = self.missing_outside_rows('mapping', state)
        yield from mapping
        if measure: yield from self.missing_outside_rows('measure', state)
        yield from self.missing_in_rows(False, state)
        if not mapping: yield from self.missing_in_rows(True, tuple(value(state) for value in self.mapping))
