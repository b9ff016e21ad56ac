#!/usr/bin/env python3
"""graphs.py LINKCHECK TABLE... holds the transition systems that linkcheck writes, by --aut, --aut-states and --dot, whole and around a
state, against a search of its own. Tables where there is more to look at than LOOKS are left out. Ends with 1 at the first fault."""
import json
import re
import subprocess
import sys
sys.dont_write_bytecode = True
import tables

LOOKS, DRAWN = 4000, 1000
NODE = re.compile(r'    ([is]\d+) \[label="([^"]*)"(.*)\];')
MARK = re.compile(r'    ([is]\d+_\d+) \[shape=box, style=dotted, label="([^"]*)"\];')
EDGE = re.compile(r'    ([is]\d+) -> ([is]\d+(?:_\d+)?) \[(?:(dir=back), |constraint=false, x|)?label="([^"]*)"(.*)\];')


def values_of(words):
    return tuple(map(int, re.search(r'\(([\d, ]+)\)', words).group(1).split(', ')))


class Side:
    """the states and steps of one side of a table"""
    def __init__(self, table, lines, ours):
        self.table, self.ours = table, ours
        self.rows = table.our_rows if ours else table.rows
        self.sizes = table.our_sizes if ours else table.sizes
        self.start = tuple(line[2] for line in lines if line[0] == (2 if ours else 1))

    def within(self, state):
        return all(value < size for value, size in zip(state, self.sizes)) and (self.ours or self.table.invariant(state) is True)

    def steps(self, state):
        """(row, sum value, action, data, where to) of what is enabled; data and next state are None without a value"""
        for r, row in enumerate(self.rows, 1):
            for s in range(row.span):
                if row.condition(state, s): yield r, s, row.action, row.data(state, s), row.to(state, s)

    def reached(self):
        if not self.within(self.start): return None
        found, fresh = {self.start}, [self.start]
        for state in fresh:
            for *_, data, to in self.steps(state):
                if data is None or to is None or not self.within(to) or to in found: continue
                found.add(to)
                fresh.append(to)
        return found

    def edges(self, states):
        """(from, label, what kind of end, the end) of the steps of these states"""
        made = set()
        for state in states:
            for r, _, action, data, to in self.steps(state):
                label = 'tau' if action == 0 else 'a%d(%s)' % (action, '?' if data is None else data)
                if data is None: made.add((state, label, 'data', r))
                elif to is None: made.add((state, label, 'next state', r))
                elif not all(value < size for value, size in zip(to, self.sizes)): made.add((state, label, 'outside the sizes', to))
                elif not self.within(to): made.add((state, label, 'outside the invariant', to))
                elif to in states: made.add((state, label, 'state', to))
        return made

    def around(self, centre, steps):
        after, before = {centre}, {centre}
        for _ in range(steps):
            after |= {to for _, _, kind, to in self.edges_from(after) if kind == 'state'}
            before |= {state for state in filter(self.within, self.table.states) if any(to in before for *_, to in self.steps(state))}
        return after | before

    def edges_from(self, states):
        class Any:
            def __contains__(self, _): return True

            def __iter__(self): return iter(states)
        return self.edges(Any())


def aut(text, states):
    head, *lines = text.splitlines()
    parts = [re.fullmatch(r'\((\d+),"([^"]*)",(\d+)\)', line).groups() for line in lines]
    edges = {(states[int(a)], label, states[int(b)]) for a, label, b in parts}
    assert head == 'des (0,%d,%d)' % (len(lines), len(states)) and len(edges) == len(lines), head
    return edges


def labels(words):
    """the single labels of a merged one"""
    for part in words.split('\\n'):
        if part == '..': raise OverflowError
        if part in ('tau', 'tau?'): yield part
        else:
            action, data = re.fullmatch(r'(a\d+)\((.*)\)', part).groups()
            for piece in data.split(', '):
                first, _, last = piece.partition('..')
                if piece == '..': raise OverflowError
                for number in range(int(first), int(last or first) + 1) if first != '?' else ['?']: yield '%s(%s)' % (action, number)


def dot(text):
    """the states of both sides by their names, the marks, and the steps of both"""
    nodes, marks, edges = {}, {}, set()
    for line in text.splitlines():
        node, mark, edge = NODE.fullmatch(line), MARK.fullmatch(line), EDGE.fullmatch(line)
        if node: nodes[node[1]] = node[2], node[3]
        elif mark: marks[mark[1]] = mark[2]
        elif edge:
            start, end = (edge[2], edge[1]) if edge[3] else (edge[1], edge[2])
            for label in labels(edge[4]): edges.add((start, label, end, edge[5]))
        else: assert not re.match('    [is][0-9]', line), line
    return nodes, marks, edges


def drawn_edges(letter, nodes, marks, edges):
    made = set()
    for start, label, end, _ in edges:
        if start[0] != letter: continue
        state = values_of(nodes[start][0])
        if end not in marks: made.add((state, label, 'state', values_of(nodes[end][0])))
        elif marks[end].startswith('no value'):
            made.add((state, label, *re.search(r'n(condition|data|next state) of row (\d+)', marks[end]).groups()))
        else: made.add((state, label, marks[end].split('\\n')[-1], values_of(marks[end])))
    return {(a, b, kind, int(to) if isinstance(to, str) else to) for a, b, kind, to in made if kind != 'condition'}


class Try:
    def __init__(self, program, name):
        self.program, self.name = program, name
        self.told = json.loads(self.run('--json'))
        if self.told['verdict'] == 'turned down': return
        self.table = tables.Table(name)
        with open(name) as file: lines = [[int(line[i:i + 6]) for i in range(0, len(line) - 1, 6)] for line in file]
        self.board, self.ours = Side(self.table, lines, False), Side(self.table, lines, True)

    def run(self, *arguments):
        done = subprocess.run([self.program, *arguments, self.name], stdout=subprocess.PIPE, stderr=subprocess.PIPE, encoding='utf-8')
        self.status = done.returncode
        return done.stdout

    def system(self, side, word):
        reached, states = side.reached(), self.run('--aut-states', word).splitlines()
        if reached is None or len(reached) > 65536:
            assert self.status == 1 and not states
            return
        listed = [values_of(line) for line in states]
        assert [line.split()[0] for line in states] == [str(n) for n in range(len(states))], 'numbers of states'
        assert set(listed) == reached and len(listed) == len(reached), 'states of --aut'
        if not side.ours: assert [int(line.split()[1]) for line in states] == [self.table.number[state] for state in listed]
        due = {(a, label, b) for a, label, kind, b in side.edges(reached) if kind == 'state'}
        assert aut(self.run('--aut', word), listed) == due, 'steps of --aut %s' % word

    def failure(self, edges, nodes):
        """the failing state and its step stand out, and nothing else does"""
        failing = [name for name, (_, style) in nodes.items() if name[0] == 'i' and 'octagon' in style]
        thick = {(start, label) for start, label, _, style in edges if start[0] == 'i' and 'penwidth=3' in style}
        if self.told['verdict'] != 'failed': assert not failing and not thick
        else:
            assert failing == ['i%d' % self.told['state']], 'the failing state'
            assert 'criterion %d fails' % self.told['criterion'] in nodes[failing[0]][0]
            by_board = self.told.get('row_of') == 'implementation'
            assert len(thick) == by_board and all(start == failing[0] for start, _ in thick), 'the failing step'

    def states_of(self, letter, nodes):
        return {values_of(words): (name, words, style) for name, (words, style) in nodes.items() if name[0] == letter}

    def node(self, state, name, words, style):
        """the number, the mapped state, whether it is a focus point"""
        assert name == 'i%d' % self.table.number[state] and words.startswith('%s\\n(' % name[1:]), name
        ours = tuple(value(state) for value in self.table.mapping)
        assert None in ours or '\\nmapped to (%s)' % ', '.join(map(str, ours)) in words, words
        focus = not any(self.table.rows[r - 1].mark(state, s) for r, s, action, *_ in self.board.steps(state) if action == 0)
        assert focus == ('peripheries=2' in style), 'focus point %s' % name
        assert any(True for _ in self.table.missing(state)) == ('a value is missing' in words), words

    def picture(self, *around):
        text = self.run('--dot', *around)
        reached = self.board.reached(), self.ours.reached()
        if around: due = self.board.around(self.table.states[int(around[1].split(',')[0])], int(around[1].split(',')[1])), None
        elif None in reached or max(map(len, reached)) > DRAWN:
            assert self.status == 1 and not text
            return 0
        else: due = reached
        assert self.status == 0, 'status'
        try: nodes, marks, edges = dot(text)
        except OverflowError: return 0
        for letter, side, states in zip('is', (self.board, self.ours), due):
            drawn = self.states_of(letter, nodes)
            # Those that a failure names may be more than are reached.
            more = {state for state in drawn if states is not None and state not in states}
            assert states is None or (states <= set(drawn) and len(more) <= 2), 'states'
            apart = {state for state in drawn if 'not reached' in drawn[state][1]}
            assert apart == (set() if around else more), 'what is not reached'
            assert drawn_edges(letter, nodes, marks, edges) == side.edges(set(drawn)), 'steps'
            for state in drawn if letter == 'i' else (): self.node(state, *drawn[state])
        self.failure(edges, nodes)
        return 1


looked = around = 0
for name in sys.argv[2:]:
    one = Try(sys.argv[1], name)
    if one.told['verdict'] == 'turned down' or one.table.looks() > LOOKS: continue
    try:
        one.system(one.board, 'impl')
        one.system(one.ours, 'spec')
        looked += one.picture()
        centre = one.told.get('state', 0)
        if one.board.within(one.table.states[centre]):
            for steps in range(3): around += one.picture('--around', '%d,%d' % (centre, steps))
    except AssertionError as error: sys.exit('graphs: %s: %s' % (name, error))
if looked < 200 or around < 500: sys.exit('graphs: few pictures: %d, %d' % (looked, around))
print('graphs: %d pictures, %d around a state' % (looked, around))
