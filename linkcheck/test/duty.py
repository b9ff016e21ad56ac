#!/usr/bin/env python3
"""Holds lines of `linkcheck --duty DUTY --json` against those of `linkcheck --json` for the same files, and against the files: one that is
turned down stays so; one whose lines of kind 2 or 4 are not the duty's has another duty, and its first line that differs is named; of any
other nothing changes. Usage: duty.py DUTY PLAIN WITH_DUTY. Says how many there are of each. Ends with 1 at the first fault."""
import collections
import json
import sys


def lines_of(name, kind):
    """the lines of a kind, with their numbers, as lists of fields"""
    with open(name) as file: lines = [line.split() for line in file]
    return [(number, fields) for number, fields in enumerate(lines, 1) if fields[0] == kind]


def due(name, duty):
    """the members that name the first difference, None if there is none"""
    for kind in '2', '4':
        has, wanted = lines_of(name, kind), lines_of(duty, kind)
        for i in range(max(len(has), len(wanted))):
            if i >= len(has): return {'duty_line': wanted[i][0]}
            if i >= len(wanted): return {'line': has[i][0]}
            if has[i][1] != wanted[i][1]: return {'line': has[i][0], 'duty_line': wanted[i][0]}
    return None


def judge(duty, plain, told):
    before, after = json.loads(plain), json.loads(told)
    if before['verdict'] == 'turned down':
        if before != after: sys.exit('duty: %s is turned down: %s' % (before['file'], told))
        return 'turned down'
    wanted = due(before['file'], duty)
    if wanted is None:
        if before != after: sys.exit('duty: %s has the duty: %s' % (before['file'], told))
        return 'the same'
    if not after.pop('difference', None) or after != dict(wanted, file=before['file'], verdict='other duty'):
        sys.exit('duty: %s is due: %s' % (wanted, told))
    return 'other duty'


def main():
    duty, plain, with_duty = sys.argv[1:]
    found = collections.Counter()
    with open(plain) as first, open(with_duty) as second:
        first, second = first.readlines(), second.readlines()
    if len(first) != len(second): sys.exit('duty: %d lines, %d with the duty' % (len(first), len(second)))
    for pair in zip(first, second): found[judge(duty, *pair)] += 1
    print('duty: ' + ', '.join('%d %s' % (number, what) for what, number in sorted(found.items())))
    for what in 'turned down', 'the same', 'other duty':
        if not found[what]: sys.exit('duty: no table for "%s"' % what)


main()
