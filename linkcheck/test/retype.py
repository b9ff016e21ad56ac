#!/usr/bin/env python3
"""Types texts anew: retype.py SEED FOLDER TEXT... writes for each text that is whole fields a file FOLDER/K that has the same numbers, with
any blanks, leading zeros, comments and lines without a number; and to standard output a line with the text's name, the file's, and the
file's line that each of the text's lines comes from. The same seed gives the same files."""
import random
import re
import sys

FIELD = re.compile(rb' {5}\d| {4}[1-9]\d| {3}[1-9]\d\d| {2}[1-9]\d{3}| [1-9]\d{4}')
BLANKS = ' \t\r\v\f'


def fields_of(line):
    """the numbers of a line of whole fields, None if it is no such line"""
    fields = [line[i:i + 6] for i in range(0, len(line), 6)]
    if not line or not all(FIELD.fullmatch(field) and int(field) <= 65535 for field in fields): return None
    return [int(field) for field in fields]


def blanks(least, most):
    return ''.join(random.choice(BLANKS if random.random() < 0.2 else '  ') for _ in range(random.randint(least, most)))


def comment():
    return '#' + ''.join(random.choice('# 0123\taz"\\\u20ac') for _ in range(random.randint(0, 9)))


def typed(lines):
    """the file's text, and the line that each line comes from"""
    file, places = [], []
    for line in lines:
        while random.random() < 0.3: file.append(blanks(0, 2) + random.choice(['', comment()]))
        places.append(len(file) + 1)
        words = ['0' * random.choice([0, 0, 0, 0, 1, 7]) + str(number) for number in line]
        end = random.choice(['', '', '\r', blanks(0, 2), comment(), ' ' + comment()])
        file.append(blanks(0, 3) + ''.join(word + blanks(1, 3) for word in words[:-1]) + words[-1] + end)
    while random.random() < 0.3: file.append(random.choice(['', comment()]))
    return '\n'.join(file) + random.choice(['', '\n']), places


random.seed(int(sys.argv[1]))
for k, name in enumerate(sys.argv[3:]):
    with open(name, 'rb') as source: text = source.read()
    if text and not text.endswith(b'\n'): continue
    lines = [fields_of(line) for line in text.split(b'\n')[:-1]]
    if None in lines or len(text) > 28672: continue
    made, places = typed(lines)
    with open('%s/%d' % (sys.argv[2], k), 'w', newline='') as out: out.write(made)
    print(name, '%s/%d' % (sys.argv[2], k), *places)
