#!/usr/bin/env python3
"""retyped.py PLACES PLAIN TYPED holds what linkcheck --json writes of texts against what it writes with --typed of the same texts typed
anew, by what retype.py wrote to PLACES: all is the same but the lines, which are those of the typed file, and the columns, where there is
what is quoted. Ends with 1 at the first fault."""
import json
import re
import sys


def told(name):
    with open(name) as file: return {one['file']: one for one in map(json.loads, file)}


def moved(value, places, member=None):
    """the value with its lines moved; places and words that name them are left out"""
    if isinstance(value, dict):
        return {name: moved(part, places, name) for name, part in value.items() if name not in ('file', 'column')}
    if isinstance(value, list): return [moved(part, places) for part in value]
    if member == 'line': return places[value - 1] if places else 0
    if isinstance(value, str): return re.sub(r'\bcolumns? \d+( to \d+)?|\bline \d+', '', value)
    return value


def quoted_is_there(lines, fault):
    """the number that is quoted is a word of the file at that line and column"""
    word = re.match(rb'[0-9]+', lines[fault['line'] - 1][fault['column'] - 1:])
    return word and int(word.group()) == int(fault['quoted'])


plain, typed, looked, lines_moved = told(sys.argv[2]), told(sys.argv[3]), 0, 0
with open(sys.argv[1]) as file: pairs = [line.split() for line in file]
for name, file, *places in pairs:
    places = list(map(int, places))
    due, got = moved(plain[name], places), moved(typed[file], list(range(1, 100000)))
    if due != got: sys.exit('retyped: %s: %s is due, not %s' % (file, due, got))
    with open(file, 'rb') as text: lines = text.read().split(b'\n')
    for fault in typed[file].get('faults', []):
        lines_moved += 'line' in fault
        if 'column' not in fault: continue
        looked += 1
        if not quoted_is_there(lines, fault): sys.exit('retyped: %s: not there: %s' % (file, fault))
if len(pairs) < 1000 or looked < 200 or lines_moved < 300: sys.exit('retyped: few files: %d, %d, %d' % (len(pairs), looked, lines_moved))
print('retyped: %d files, %d places in them' % (len(pairs), looked))
